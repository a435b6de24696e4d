// Eight threads, and calls within calls in each: no call mixes its bytes with those of another. BCS_WASM names the module, which is
// compiled once. Expected bytes are written out.
import assert from 'node:assert/strict';
import { readFileSync } from 'node:fs';
import test from 'node:test';
import { isMainThread, parentPort, Worker, workerData } from 'node:worker_threads';
import { load } from '../bcs.mjs';

const THREADS = 8;
const LENGTHS = [0, 1, 127, 1500, 9000];
const TURNS = 30;
const REGISTRY = '{"P":{"STRUCT":[{"b":"STR"},{"a":"BYTES"},{"c":{"SEQ":"U16"}},{"d":"U64"}]}}';

/** A value with its bytes and its normal JSON. */
function rowOf(number, length) {
  const letter = 97 + (number % 26);
  const [text, bytes] = [String.fromCharCode(letter).repeat(length), new Uint8Array(length).fill(letter)];
  const count = length < 128 ? [length] : [(length & 127) | 128, length >> 7];
  const wide = Array.from({ length: 8 }, (_, i) => Number((BigInt(number) >> BigInt(8 * i)) & 255n));
  const data = Uint8Array.of(...count, ...bytes, ...count, ...bytes, 2, number & 255, number >> 8, number & 255, number >> 8, ...wide);
  const json = `{"a":"${letter.toString(16).repeat(length)}","b":"${text}","c":[${number},${number}],"d":"${number}"}`;
  return { value: { b: text, a: bytes, c: [number, number], d: BigInt(number) }, data, json };
}

/** Calls of each kind, also refused ones. */
function check(registry, { value, data, json }) {
  assert.deepEqual(registry.encode('P', value), data);
  assert.deepEqual(registry.decode('P', data), value);
  assert.deepEqual(Object.keys(registry.decode('P', data)), ['b', 'a', 'c', 'd']);
  assert.deepEqual(registry.encodeText('P', json), data);
  assert.deepEqual(JSON.parse(registry.decodeText('P', data)).b, value.b);
  assert.equal(registry.scan('P', data), data.length);
  assert.throws(() => registry.encode('P', { ...value, a: 'text' }), { kind: 'value', at: '/a' });
  assert.throws(() => registry.decode('P', data.subarray(0, -1)), { kind: 'bytes', place: data.length - 1 });
}

/** The same value, but reading any part of it makes calls on other values. */
function calling(registry, { value }, others) {
  let runs = 0;
  const nested = () => check(registry, others[runs++ % others.length]);
  const parts = Object.entries(value).map(([name, part]) => [name, { get: () => (nested(), part), enumerable: true }]);
  const items = new Proxy(value.c, { get: (target, name) => (nested(), Reflect.get(target, name)) });
  parts[2][1].get = () => (nested(), items);
  return { made: Object.defineProperties({}, Object.fromEntries(parts)), runs: () => runs };
}

async function run(module, thread) {
  const bcs = await load(module);
  const [registry, other] = [bcs.registry(REGISTRY), bcs.registry(REGISTRY)];
  for (let turn = 0; turn < TURNS; turn++) {
    const rows = LENGTHS.map((length) => rowOf(1000 * thread + turn, length));
    for (const row of rows) {
      check(registry, row);
      const { made, runs } = calling(turn % 2 ? registry : other, row, rows);
      assert.deepEqual(registry.encode({ toJSON: () => (check(other, rows[0]), { TYPENAME: 'P' }) }, made), row.data);
      assert.ok(runs() >= 7, `${runs()} calls within the call`);
    }
  }
  return TURNS * LENGTHS.length;
}

if (isMainThread) {
  test('eight threads with calls within calls', async () => {
    const module = await WebAssembly.compile(readFileSync(process.env.BCS_WASM));
    const ends = Array.from({ length: THREADS }, (_, thread) => new Promise((resolve, reject) => {
      const worker = new Worker(new URL(import.meta.url), { workerData: { module, thread } });
      worker.on('message', resolve).on('error', reject);
    }));
    assert.deepEqual(await Promise.all(ends), new Array(THREADS).fill(TURNS * LENGTHS.length));
  });
} else {
  parentPort.postMessage(await run(workerData.module, workerData.thread));
}
