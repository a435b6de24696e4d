// Arguments that run code of the caller, which makes calls itself: no call mixes its bytes with those of another. BCS_WASM names
// the module. Expected answers are written out: the tuple of the one text "one" has the bytes 03 6f 6e 65.
import assert from 'node:assert/strict';
import { readFileSync } from 'node:fs';
import test from 'node:test';
import { BcsError, load, toBase64 } from '../bcs.mjs';
import { hexOf } from '../hex.mjs';

const bcs = await load(readFileSync(process.env.BCS_WASM));
const SHAPES = '{"P":{"STRUCT":[{"v":"U8"},{"w":"STR"}]},"L":{"NEWTYPESTRUCT":{"SEQ":{"TYPENAME":"L"}}}}';
const registry = bcs.registry(SHAPES);
const other = bcs.registry('{"P":{"NEWTYPESTRUCT":"STR"}}');
const TUPLE = { TUPLE: ['STR'] };
const BYTES = [3, 0x6f, 0x6e, 0x65];
const DIGITS = '036f6e65';
const JSON_TEXT = '["one"]';
const bytesOf = (text) => Array.from(Buffer.from(text));

let runs = 0;
/** Every call with other arguments, also refused ones, on the same registry and on others. Its answers have to be right, too. */
function calls() {
  runs++;
  for (const used of [registry, registry.withLimits({ depth: 9 }), other]) {
    assert.equal(hexOf(used.encodeText('"STR"', '"two, and longer"')), '0f74776f2c20616e64206c6f6e676572');
    assert.equal(hexOf(used.encode({ TUPLE: ['STR', 'U8'] }, ['two', 2])), '0374776f02');
    assert.equal(used.normaliseText({ SEQ: 'STR' }, ' ["two"]'), '["two"]');
    assert.equal(used.equalText('"STR"', '"two"', '"two!"'), false);
    assert.equal(used.equal('"STR"', 'two', 'two!'), false);
    assert.equal(used.decode('"STR"', [3, 0x74, 0x77, 0x6f]), 'two');
    assert.equal(used.decodeText({ OPTION: 'U8' }, [1, 2]), '{"some":2}');
    assert.equal(used.scan('"STR"', [1, 0x74, 0x77]), 2);
    assert.deepEqual(used.part({ SEQ: 'U8' }, [2, 7, 8], '1'), { place: 2, bytes: Uint8Array.of(8) });
    assert.equal(used.explain('"U8"', [2]).length, 2);
    assert.equal(used.check('P'), undefined);
    assert.throws(() => used.encodeText('"U8"', '"two"'), BcsError);
    assert.throws(() => used.decode('"STR"', [9]), BcsError);
    assert.throws(() => used.encode('"STR"', 2), BcsError);
  }
  bcs.grows('{}', SHAPES);
  bcs.registry('{"Q":{"NEWTYPESTRUCT":"U8"}}').close();
}
/** What makes calls and then has this value. */
const calling = (value) => (calls(), value);
const getter = (object, name, value) => Object.defineProperty(object, name, { get: () => calling(value), enumerable: true });
const proxyOf = (object) => new Proxy(object, {
  get: (target, name) => calling(Reflect.get(target, name)),
  ownKeys: (target) => calling(Reflect.ownKeys(target)),
  getOwnPropertyDescriptor: (target, name) => calling(Reflect.getOwnPropertyDescriptor(target, name)),
  getPrototypeOf: (target) => calling(Reflect.getPrototypeOf(target)),
});
/** Bytes with everything overridden that could run code. None of it should be asked. */
class Hostile extends Uint8Array {
  get length() { return calling(1000); }
  get byteLength() { return calling(1000); }
  get byteOffset() { return calling(1); }
  get buffer() { return calling(new ArrayBuffer(1)); }
  subarray() { return calling(Uint8Array.of(9)); }
  slice() { return calling(Uint8Array.of(9)); }
  every() { return calling(true); }
  [Symbol.iterator]() { return calling([9].values()); }
  [Symbol.toPrimitive]() { return calling(9); }
  get [Symbol.toStringTag]() { return calling('Map'); }
  static get [Symbol.species]() { return calling(Float64Array); }
}
const hostile = (bytes) => Object.defineProperty(new Hostile(bytes), 'constructor', { get: () => calling(Float64Array) });

const FORMATS = {
  'toJSON': () => ({ toJSON: () => calling(TUPLE) }),
  'a getter': () => getter({}, 'TUPLE', ['STR']),
  'a proxy': () => proxyOf({ TUPLE: ['STR'] }),
  'a proxy of the list': () => ({ TUPLE: proxyOf(['STR']) }),
  'toJSON within': () => ({ TUPLE: [{ toJSON: () => calling('STR') }] }),
  'toJSON to a list': () => ({ TUPLE: { toJSON: () => calling(['STR']) } }),
};
// Those whose code isn't asked for are named so; with them calls answer right all the same.
const LISTS = {
  'a getter': (bytes) => getter([...bytes], 0, bytes[0]),
  'a proxy': (bytes) => proxyOf([...bytes]),
  'not asked: an iterator': (bytes) => Object.assign([...bytes], { [Symbol.iterator]: () => calling([9].values()), every: () => calling(true) }),
  'not asked: a subclass': hostile,
};

// By the name of a call: the call by its format and input, and its answer; `text` or `bytes` says what the input is.
const CALLS = {
  encode: [(format) => hexOf(registry.encode(format, ['one'])), DIGITS],
  encodeText: [(format, text) => hexOf(registry.encodeText(format, text)), DIGITS, JSON_TEXT],
  normaliseText: [(format, text) => registry.normaliseText(format, text), JSON_TEXT, JSON_TEXT],
  normalise: [(format) => registry.normalise(format, ['one']), ['one']],
  'equal values': [(format) => registry.equal(format, ['one'], ['one']), true],
  equal: [(format, text) => registry.equalText(format, text, ' ["one"]'), true, JSON_TEXT],
  'equal, the other': [(format, text) => registry.equalText(format, ' ["one"]', text), true, JSON_TEXT],
  'equal, both': [(format, text) => registry.equalText(format, text, text), true, JSON_TEXT],
  decode: [(format, bytes) => registry.decode(format, bytes), ['one'], BYTES],
  'decode with options': [(format, bytes) => registry.decode(format, bytes, getter({}, 'plainOptions', true)), ['one'], BYTES],
  decodeText: [(format, bytes) => registry.decodeText(format, bytes), JSON_TEXT, BYTES],
  scan: [(format, bytes) => registry.scan(format, bytes), 4, BYTES],
  part: [(format, bytes) => registry.part(format, bytes, '0'), { place: 0, bytes: Uint8Array.from(BYTES) }, BYTES],
  partByName: [(format, bytes) => registry.partByName(format, bytes, '[0]'), { place: 0, bytes: Uint8Array.from(BYTES) }, BYTES],
  explain: [(format, bytes) => registry.explain(format, bytes).map(({ bytes: digits, end }) => digits ?? end), ['03', '6f6e65', 4], BYTES],
  explainText: [(format, bytes) => registry.explainText(format, bytes, 'json').split('\n').length, 4, BYTES],
  check: [(format) => registry.check(format), undefined],
};

/** Runs a call whose argument makes calls, and asks that it did. */
function reentered(name, isAsked, call, expected) {
  runs = 0;
  assert.deepEqual(call(), expected, name);
  assert.equal(runs > 0, isAsked, `${name}: code ran ${runs} times`);
}

test('a format whose toJSON encodes another text', () => {
  const format = { toJSON: () => (registry.encodeText('"STR"', '"two"'), 'STR') };
  assert.equal(hexOf(registry.encodeText(format, '"one"')), DIGITS);
  assert.equal(registry.normaliseText(format, '"one"'), '"one"');
});

test('formats that make calls, in each call', () => {
  for (const [name, [call, expected, input]] of Object.entries(CALLS)) {
    for (const [how, format] of Object.entries(FORMATS)) {
      reentered(`${name}, ${how}`, true, () => call(format(), input), expected);
    }
  }
});

test('inputs that make calls, in each call', () => {
  for (const [name, [call, expected, input]] of Object.entries(CALLS)) {
    if (input === undefined) continue;
    for (const [how, list] of Object.entries(LISTS)) {
      const bytes = typeof input === 'string' ? bytesOf(input) : input;
      const isAsked = !how.startsWith('not asked') || name === 'decode with options';
      reentered(`${name}, ${how}`, isAsked, () => call(TUPLE, list(bytes)), expected);
    }
  }
});

test('formats and inputs that make calls, together', () => {
  for (const [name, [call, expected, input]] of Object.entries(CALLS)) {
    const bytes = typeof input === 'string' ? bytesOf(input) : input;
    reentered(name, true, () => call(FORMATS.toJSON(), bytes && proxyOf([...bytes])), expected);
  }
});

test('paths, limits, registries, fault numbers and base64 that make calls', () => {
  for (const [how, list] of Object.entries(LISTS)) {
    const isAsked = !how.startsWith('not asked');
    reentered(`part, ${how}`, isAsked, () => registry.part(TUPLE, BYTES, list(bytesOf('0'))), { place: 0, bytes: Uint8Array.from(BYTES) });
    reentered(`registry, ${how}`, isAsked, () => bcs.registry(list(bytesOf('{"A":"UNITSTRUCT"}'))).names, ['A']);
    reentered(`toBase64, ${how}`, isAsked, () => toBase64(list(BYTES)), 'A29uZQ==');
    reentered(`grows, ${how}`, isAsked, () => bcs.grows(list(bytesOf('{}')), list(bytesOf(SHAPES))), undefined);
  }
  const limits = getter(getter({}, 'depth', 1), 'nodes', 5);
  reentered('limits', true, () => hexOf(registry.withLimits(limits).encodeText('P', '{"v":1,"w":""}')), '0100');
  const number = { valueOf: () => calling(402), toString: () => calling('402'), [Symbol.toPrimitive]: () => calling(402) };
  for (const fault of [number, '402', 402.5, 402n, 2 ** 32 + 402, -1, NaN, null]) {
    reentered('faultName', false, () => bcs.faultName(fault), undefined);
  }
  assert.equal(bcs.faultName(402), 'BadBool');
});

test('values that make calls', () => {
  const struct = { TYPENAME: 'P' };
  const members = { v: 7, w: 'one' };
  const asked = (name, format, make, digits) => reentered(name, true, () => hexOf(registry.encode(format, make())), digits);
  asked('a getter', struct, () => getter({ v: 7 }, 'w', 'one'), `07${DIGITS}`);
  asked('a proxy', struct, () => proxyOf(members), `07${DIGITS}`);
  asked('a getter of the tag', struct, () => Object.assign(Object.create({ get [Symbol.toStringTag]() { return calling('Object'); } }), members), `07${DIGITS}`);
  asked('a getter in a list', { SEQ: 'STR' }, () => getter(['a', 'b'], 1, 'one'), `020161${DIGITS}`);
  asked('a proxy of a list', { SEQ: 'STR' }, () => proxyOf(['a', 'one']), `020161${DIGITS}`);
  asked('a proxy of pairs', { MAP: { KEY: 'STR', VALUE: 'U8' } }, () => proxyOf([proxyOf(['one', 7])]), `01${DIGITS}07`);
  asked('an option', { OPTION: 'STR' }, () => getter({}, 'some', 'one'), `01${DIGITS}`);
  asked('a value in a map', { MAP: { KEY: 'STR', VALUE: struct } }, () => new Map([['one', proxyOf(members)]]), `01${DIGITS}07${DIGITS}`);
  const notAsked = (name, format, value, digits) => reentered(name, false, () => hexOf(registry.encode(format, value)), digits);
  const map = Object.assign(new Map([['one', 7]]), {
    [Symbol.iterator]: () => calling([['two', 2]].values()), entries: () => calling([['two', 2]].values()), forEach: () => calling(),
  });
  assert.equal(registry.equal(struct, getter({ v: 7 }, 'w', 'one'), getter({ v: 7 }, 'w', 'one')), true);
  assert.equal(registry.equal(struct, getter({ v: 7 }, 'w', 'one'), getter({ v: 7 }, 'w', 'ones')), false);
  notAsked('an iterator of a map', { MAP: { KEY: 'STR', VALUE: 'U8' } }, map, `01${DIGITS}07`);
  notAsked('toJSON of a list', { SEQ: 'STR' }, Object.assign(['one'], { toJSON: () => calling(['two']) }), `01${DIGITS}`);
  notAsked('an iterator of a list', { SEQ: 'STR' }, Object.assign(['one'], { [Symbol.iterator]: () => calling(['two'].values()) }), `01${DIGITS}`);
  notAsked('bytes', '"BYTES"', hostile(BYTES.slice(1)), DIGITS);
  notAsked('toJSON of an object', struct, Object.assign(Object.create({ toJSON: () => calling({ v: 2 }) }), members), `07${DIGITS}`);
});

test('an object that converts itself to a number or a text is rejected without running its code', () => {
  const number = { valueOf: () => calling(7), toString: () => calling('7'), toJSON: () => calling(7), [Symbol.toPrimitive]: () => calling(7) };
  for (const format of ['U8', 'STR', 'BOOL', 'UNIT', 'BYTES', 'I128']) {
    runs = 0;
    assert.throws(() => registry.encode(`"${format}"`, number), (error) => error instanceof BcsError && error.kind === 'value');
    assert.equal(runs, 0);
  }
});

/** A list whose items change after they were read once. */
const changing = (first, then) => {
  const reads = new Set();
  return new Proxy([...first], { get: (target, name) => (name === 'length' || !reads.has(name) ? (reads.add(name), target[name]) : then) });
};

test('each thing is read once, and what it is later doesn’t matter', () => {
  assert.equal(registry.decode(TUPLE, changing(BYTES, 300))[0], 'one');
  assert.equal(hexOf(registry.encodeText(TUPLE, changing(bytesOf(JSON_TEXT), 'x'))), DIGITS);
  assert.equal(hexOf(registry.encode({ SEQ: 'STR' }, changing(['one'], 2))), `01${DIGITS}`);
  let count = 0;
  const format = { toJSON: () => (count++ === 0 ? TUPLE : { TUPLE: ['BYTES'] }) };
  assert.deepEqual(registry.decode(format, BYTES), ['one']);
  assert.equal(count, 1);
  const twice = { get w() { return count++ % 2 ? 'one' : 'two'; }, v: 7 };
  assert.equal(hexOf(registry.encode('P', twice)), `07${DIGITS}`);
  assert.equal(count, 2);
});

test('a list that grows and a map that grows, while they are read', () => {
  const list = getter([], 0, 'one');
  const growing = new Proxy(list, { get: (target, name) => (name === '0' && (list.length = 3), Reflect.get(target, name)) });
  assert.equal(hexOf(registry.encode({ SEQ: 'STR' }, growing)), `01${DIGITS}`);
  const map = new Map();
  map.set('one', { get v() { map.set(`${map.size}`, null); return 7; }, w: 'one' });
  assert.equal(hexOf(registry.encode({ MAP: { KEY: 'STR', VALUE: { TYPENAME: 'P' } } }, map)), `01${DIGITS}07${DIGITS}`);
});

test('a registry that is closed while a call runs: the call ends with its own answer, and later ones throw', () => {
  const members = (closing) => ({ v: 7, get w() { closing.close(); return 'one'; } });
  const format = (closing) => ({ toJSON: () => (closing.close(), TUPLE) });
  const rows = [
    ['encode', (closing) => hexOf(closing.encode('P', members(closing))), `07${DIGITS}`],
    ['of other limits', (closing) => hexOf(closing.withLimits({ depth: 9 }).encode('P', members(closing))), `07${DIGITS}`],
    ['decode', (closing) => closing.decode(format(closing), BYTES), ['one']],
    ['part', (closing) => closing.part(format(closing), BYTES, '0').place, 0],
    ['a call within a call', (closing) => closing.decode({ toJSON: () => (closing.decode(format(closing), BYTES), TUPLE) }, BYTES), ['one']],
  ];
  for (const [name, call, expected] of rows) {
    const closing = bcs.registry(SHAPES);
    assert.deepEqual(call(closing), expected, name);
    assert.throws(() => closing.check('P'), /the registry is closed/, name);
  }
  // (the message of a refusal is asked for by another call of the module)
  const refusing = bcs.registry(SHAPES);
  const refused = { kind: 'text', reason: 'BadNumber', message: /0 to 255/ };
  assert.throws(() => refusing.encode('P', { v: 256, get w() { refusing.close(); return 'one'; } }), refused);
  assert.throws(() => refusing.decode('P', BYTES), /the registry is closed/);
  assert.equal(hexOf(registry.encode('P', { v: 7, w: 'one' })), `07${DIGITS}`);
});

test('buffers that are changed, detached or cut while other arguments are read', () => {
  const detach = (bytes) => structuredClone(bytes.buffer, { transfer: [bytes.buffer] });
  const made = () => Uint8Array.from(BYTES);
  for (const call of [(format, bytes) => registry.decode(format, bytes), (format, bytes) => registry.scan(format, bytes), (format, bytes) => registry.part(format, bytes, '0')]) {
    const bytes = made();
    assert.throws(() => call({ toJSON: () => (detach(bytes), TUPLE) }, bytes), TypeError);
  }
  const bytes = made();
  assert.equal(registry.decode({ toJSON: () => ((bytes[1] = 0x61), TUPLE) }, bytes)[0], 'ane');
  // (the bytes are copied before the path is read)
  const [first, second] = [made(), made()];
  const path = (change) => Object.defineProperty([0x30], 0, { get: () => (change(), 0x30) });
  assert.deepEqual(registry.part(TUPLE, first, path(() => first.fill(0))), { place: 0, bytes: Uint8Array.from(BYTES) });
  assert.deepEqual(registry.part(TUPLE, second, path(() => detach(second))), { place: 0, bytes: Uint8Array.from(BYTES) });
  const pair = [{ get v() { detach(pair[1]); return 7; }, w: '' }, made()];
  assert.throws(() => registry.encode({ TUPLE: [{ TYPENAME: 'P' }, 'BYTES'] }, pair), { kind: 'value', at: '/1', detail: /a detached Uint8Array/ });
  const buffer = new ArrayBuffer(4, { maxByteLength: 1 << 20 });
  const [fixed, tracking] = [new Uint8Array(buffer, 0, 4), new Uint8Array(buffer)];
  tracking.set(BYTES);
  const resized = (size) => ({ toJSON: () => (buffer.resize(size), TUPLE) });
  assert.deepEqual(registry.decode(resized(4), tracking), ['one']);
  assert.throws(() => registry.decode(resized(1 << 20), tracking), { kind: 'bytes', reason: 'TrailingBytes', place: 4 });
  assert.deepEqual(registry.decode(resized(6), fixed), ['one']);
  assert.throws(() => registry.decode(resized(2), fixed), TypeError);
});

test('code that throws leaves calls as they were', () => {
  const failure = new Error('of the caller');
  const fails = () => { throw failure; };
  const throwing = [{ toJSON: fails }, Object.defineProperty({}, 'TUPLE', { get: fails, enumerable: true })];
  for (const [name, [call, expected, input]] of Object.entries(CALLS)) {
    for (const format of throwing) assert.throws(() => call(format, input), failure);
    assert.deepEqual(call(TUPLE, input), expected, name);
  }
  assert.throws(() => registry.encode('P', { v: 7, get w() { return fails(); } }), failure);
  assert.equal(hexOf(registry.encode(TUPLE, ['one'])), DIGITS);
});
