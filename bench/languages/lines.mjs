// Each line of the input as a transaction, by the plain codec, for bench/peers.py: lines.mjs COMMAND
import { readFileSync, writeSync } from 'node:fs';
import { PlainReader, PlainWriter } from './plain.mjs';

const ROOM = 4096;
const bytesOf = (digits) => Buffer.from(digits, 'hex');
const digitsOf = (bytes) => Buffer.from(bytes.buffer, bytes.byteOffset, bytes.length).toString('hex');

class Writer extends PlainWriter {
  address(text) {
    this.raw(bytesOf(text));
  }
}

class Reader extends PlainReader {
  address() {
    return digitsOf(this.take(32));
  }

  number() {
    return String(super.number());
  }
}

function withArguments(value, changed) {
  const call = value.payload.EntryFunction;
  call.args = call.args.map(changed);
  return value;
}

const toBytes = (line) => new Writer(ROOM).transaction(withArguments(JSON.parse(line), bytesOf));
const toJson = (bytes) => JSON.stringify(withArguments(new Reader(bytes).transaction(), digitsOf));
const answer = {
  encode: (line) => digitsOf(toBytes(line)),
  decode: (line) => toJson(bytesOf(line)),
  normalise: (line) => toJson(toBytes(line)),
}[process.argv[2]];

const lines = readFileSync(0, 'utf8').split('\n').slice(0, -1);
let rest = Buffer.from(lines.map((line) => `${answer(line)}\n`).join(''));
while (rest.length > 0) rest = rest.subarray(writeSync(1, rest));
