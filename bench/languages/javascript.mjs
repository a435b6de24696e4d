// Times the calls of bindings/web in Node for bench/values.py: javascript.mjs WEB EXAMPLES
import assert from 'node:assert/strict';
import { readFileSync } from 'node:fs';
import { pathToFileURL } from 'node:url';
import { PlainReader, PlainWriter } from './plain.mjs';

const RUNS = 7;
// A run takes about this many microseconds.
const RUN = 100_000;
const [, , web, examples] = process.argv;
const { load, BcsError } = await import(pathToFileURL(`${web}/bcs.mjs`).href);

/** Prints the microseconds of processor time for a call, the least of all runs. */
function report(name, call) {
  const measure = (count) => {
    const start = process.cpuUsage();
    for (let i = 0; i < count; i++) call();
    const { user, system } = process.cpuUsage(start);
    return user + system;
  };
  let count = 1;
  while (measure(count) < RUN) count *= 2;
  count = Math.ceil((count * RUN) / measure(count));
  console.log(name, Math.min(...Array.from({ length: RUNS }, () => measure(count))) / count);
}

/** The call, which must be refused. */
function refused(call) {
  return () => {
    try {
      call();
    } catch (error) {
      if (error instanceof BcsError) return;
      throw error;
    }
    throw new Error('not refused');
  };
}

function hexOf(bytes) {
  return Buffer.from(bytes.buffer, bytes.byteOffset, bytes.length).toString('hex');
}

function bytesOf(hex) {
  return Uint8Array.from(Buffer.from(hex, 'hex'));
}

const bcs = await load(readFileSync(`${web}/bcs.wasm`));

function transfer() {
  const read = (name) => readFileSync(`${examples}/${name}`, 'utf8');
  const registry = bcs.registry(read('aptos_registry.json'), { names: { address: ['AccountAddress'] } });
  const [format, text, data] = ['RawTransaction', read('aptos_transfer.json'), bytesOf(read('aptos_transfer.hex').trim())];
  const value = registry.decode(format, data);
  const wrong = text.replace('"chain_id": 4', '"chain_id": -4');
  const plain = () => new PlainWriter(1000).transaction(value);
  for (const made of [registry.encode(format, value), plain()]) assert.deepEqual(made, data);
  assert.deepEqual(new PlainReader(data).transaction(), value);
  report('transfer encode values', () => registry.encode(format, value));
  report('transfer encode values-refused', refused(() => registry.encode(format, { ...value, chain_id: -4 })));
  report('transfer encode text', () => registry.encodeText(format, text));
  report('transfer encode text-refused', refused(() => registry.encodeText(format, wrong)));
  report('transfer encode plain', plain);
  report('transfer decode values', () => registry.decode(format, data));
  report('transfer decode values-refused', refused(() => registry.decode(format, data.subarray(0, -1))));
  report('transfer decode text', () => registry.decodeText(format, data));
  report('transfer decode text-refused', refused(() => registry.decodeText(format, data.subarray(0, -1))));
  report('transfer decode plain', () => new PlainReader(data).transaction());
}

function megabyte() {
  const [registry, format] = [bcs.registry('{}'), '"BYTES"'];
  const value = Uint8Array.from({ length: 1_000_000 }, (_, i) => Math.imul(i, 2_654_435_761) >>> 24);
  const plain = () => {
    const writer = new PlainWriter(value.length + 5);
    writer.bytes(value);
    return writer.whole();
  };
  const [data, text] = [registry.encode(format, value), `"${hexOf(value)}"`];
  assert.deepEqual(plain(), data);
  assert.equal(registry.decodeText(format, data), text);
  assert.deepEqual(registry.decode(format, data), value);
  report('bytes encode values', () => registry.encode(format, value));
  report('bytes encode text', () => registry.encodeText(format, text));
  report('bytes encode plain', plain);
  report('bytes decode values', () => registry.decode(format, data));
  report('bytes decode text', () => registry.decodeText(format, data));
  report('bytes decode plain', () => new PlainReader(data).bytes());
}

transfer();
megabyte();
