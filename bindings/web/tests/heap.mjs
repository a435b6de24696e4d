// The heap of the module, by what it hands out to the loader: blocks that are aligned and apart, and given back. BCS_WASM
// names the module, and BCS_BITS is 64 where its addresses have so many.
import assert from 'node:assert/strict';
import { readFileSync } from 'node:fs';
import test from 'node:test';

const END_OF_NARROW = 2 ** 32 - 2 ** 26;
const module = await WebAssembly.compile(readFileSync(process.env.BCS_WASM));

/** Numbers that look random, the same in each run. */
function draws(state = 20261126) {
  return (below) => {
    state = (Math.imul(state, 1664525) + 1013904223) >>> 0;
    return Math.floor((state / 2 ** 32) * below);
  };
}

class Heap {
  constructor() {
    this.exports = new WebAssembly.Instance(module, {}).exports;
    this.blocks = [];
  }

  get size() {
    return this.exports.memory.buffer.byteLength;
  }

  bytes({ place, length }) {
    return new Uint8Array(this.exports.memory.buffer, place, length);
  }

  take(length, mark) {
    const place = Number(this.exports.take_memory(BigInt(length)));
    assert.notEqual(place, 0);
    assert.equal(place % 16, 0);
    const block = { place, length, mark };
    this.bytes(block).fill(mark);
    this.blocks.push(block);
  }

  /** Takes blocks of each size that the heap has, ever smaller ones, until there is no memory for the least. */
  fill() {
    const large = Array.from({ length: 21 }, (_, i) => 2 ** (31 - i));
    const small = Array.from({ length: 64 }, (_, i) => 1024 - 16 * i);
    for (const length of [...large, ...small]) {
      for (;;) {
        const place = Number(this.exports.take_memory(BigInt(length)));
        if (place === 0) break;
        this.blocks.push({ place, length });
      }
    }
  }

  giveAll() {
    for (const { place } of this.blocks.splice(0)) this.exports.give_memory(BigInt(place));
  }

  /** The two words of a text that was put into the memory. */
  put(text) {
    const bytes = new TextEncoder().encode(text);
    const place = this.exports.take_memory(BigInt(bytes.length));
    this.bytes({ place: Number(place), length: bytes.length }).set(bytes);
    return [place, BigInt(bytes.length)];
  }

  /** A question to encode a text, as the module of 64-bit addresses has it. */
  putQuestion(format, text) {
    const [toBcs, depth, nodes] = [2, 500, 0xffffffff];
    const place = this.exports.take_memory(88n);
    const [atFormat, atText] = [this.put(format), this.put(text)];
    const view = new DataView(this.exports.memory.buffer, Number(place), 88);
    for (let at = 0; at < 88; at += 8) view.setBigUint64(at, 0n, true);
    [88, toBcs, 0, 0, depth, nodes].forEach((number, i) => view.setUint32(4 * i, number, true));
    [...atFormat, ...atText].forEach((word, i) => view.setBigUint64(24 + 8 * i, word, true));
    return place;
  }

  /** What was written into a block is still there. */
  give(i) {
    const [block] = this.blocks.splice(i, 1);
    assert.ok(this.bytes(block).every((byte) => byte === block.mark), `the block of ${block.length} bytes at ${block.place}`);
    this.exports.give_memory(BigInt(block.place));
  }
}

test('blocks of all sizes are aligned, apart from one another, and used again', () => {
  const [heap, draw] = [new Heap(), draws()];
  const sizes = [0, 1, 15, 16, 17, 100, 1008, 1024, 1025, 4096, 5000, 65536, 100_000];
  for (let i = 0; i < 4_000; i++) {
    if (draw(200) < heap.blocks.length) heap.give(draw(heap.blocks.length));
    else heap.take(sizes[draw(sizes.length)], i % 256);
  }
  while (heap.blocks.length > 0) heap.give(0);
  const { size } = heap;
  for (let round = 0; round < 100; round++) {
    for (const length of sizes) heap.take(length, round % 256);
    while (heap.blocks.length > 0) heap.give(0);
  }
  assert.equal(heap.size, size);
});

test('a request that no memory can meet is refused, and the next is met', () => {
  const heap = new Heap();
  for (const length of [2n ** 40n, 2n ** 40n + 1n, 2n ** 62n, 2n ** 64n - 1n]) {
    assert.equal(heap.exports.take_memory(length), 0n);
  }
  heap.take(64, 7);
  heap.give(0);
});

test('all the memory is given out, in blocks apart from one another, and then no more', () => {
  const heap = new Heap();
  heap.fill();
  if (process.env.BCS_BITS !== '64') assert.equal(heap.size, END_OF_NARROW);
  const ends = heap.blocks.map(({ place, length }) => [place, place + length]).sort(([a], [b]) => a - b);
  ends.forEach(([place, end], i) => assert.ok(place >= 2 ** 22 && end <= (ends[i + 1]?.[0] ?? heap.size), `${place} to ${end}`));
  assert.ok(ends.reduce((sum, [place, end]) => sum + end - place, 0) > 0.9 * heap.size);
  for (const length of [2n ** 32n - 1n, 2n ** 32n, 2n ** 31n, 1n]) assert.equal(heap.exports.take_memory(length), 0n);
  heap.giveAll();
  heap.take(2 ** 20, 7);
  heap.give(0);
});

test('a call in a full memory answers that, and before and behind it the bytes', () => {
  const heap = new Heap();
  const question = heap.putQuestion('{"SEQ":"U16"}', '[1,2,3]');
  const [answer, out] = [heap.put(' '.repeat(24)), heap.put(' '.repeat(9))];
  const [handle] = heap.put('\0'.repeat(8));
  const [DONE, MEMORY] = [0, 6];
  heap.exports.bcs_c_open(answer[0], handle, ...heap.put('{}'));
  assert.equal(new DataView(heap.exports.memory.buffer).getUint32(Number(answer[0]), true), DONE);
  const isAnswered = (status) => {
    heap.exports.bcs_c_ask(answer[0], handle, question, ...out, out[0], 0n);
    assert.equal(new DataView(heap.exports.memory.buffer).getUint32(Number(answer[0]), true), status);
    if (status === DONE) assert.deepEqual([...heap.bytes({ place: Number(out[0]), length: 7 })], [3, 1, 0, 2, 0, 3, 0]);
  };
  isAnswered(DONE);
  heap.fill();
  isAnswered(MEMORY);
  heap.giveAll();
  isAnswered(DONE);
});
