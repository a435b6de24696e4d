// What each format takes of JavaScript's types, and random values there and back. BCS_WASM names the module. Expected bytes are
// written out, or made by tests/rows/random_values.py. tests/rows/values/web.rows has each type at every format.
import assert from 'node:assert/strict';
import { execFileSync } from 'node:child_process';
import { readFileSync } from 'node:fs';
import test from 'node:test';
import { BcsError, hex, load } from '../bcs.mjs';
import { hexOf } from '../hex.mjs';

const bcs = await load(readFileSync(process.env.BCS_WASM));
const registry = bcs.registry('{"Pay":{"STRUCT":[{"to":"STR"},{"amount":"U64"},{"memo":{"OPTION":"BYTES"}}]}}');

test('a sample of each type', () => {
  const wanted = '03626f620700000000000000010107';
  for (const amount of [7, 7n]) {
    for (const memo of [Uint8Array.of(7), hex('07'), [7], { some: [7n] }]) assert.equal(hexOf(registry.encode('Pay', { memo, amount, to: 'bob' })), wanted);
  }
  assert.deepEqual(registry.decode('Pay', hex(wanted)), { to: 'bob', amount: 7n, memo: { some: Uint8Array.of(7) } });
  assert.throws(() => registry.encode('Pay', { to: 'bob', amount: 7.5, memo: null }), {
    name: 'BcsError', kind: 'value', reason: 'WrongType', at: '/amount', detail: 'U64 takes an integer, not the number 7.5',
  });
  const odd = bcs.registry('{"A":{"STRUCT":[{"__proto__":"U8"}]}}').decode('A', [7]);
  assert.deepEqual(Object.getOwnPropertyDescriptor(odd, '__proto__'), { value: 7, writable: true, enumerable: true, configurable: true });
});

test('billions of holes are rejected at formats that no value has', () => {
  const empty = bcs.registry('{}');
  for (const format of ['F32', 'F64', 'CHAR']) {
    const rejected = { kind: 'value', reason: 'WrongType', at: '/1000000' };
    assert.throws(() => empty.encode(`{"SEQ":"${format}"}`, new Array(2 ** 32 - 1)), rejected);
  }
});

test('no bytes, and no numbers, come from the names and numbers of other types in maps and structs', () => {
  const payment = bcs.registry('{"P":{"STRUCT":[{"amount":"U64"},{"to":"STR"}]}}');
  const bytes = Uint8Array.of(0x88, 0x13, 0, 0, 0, 0, 0, 0);
  assert.throws(() => payment.encode('P', { amount: bytes, to: 'bob' }), {
    name: 'BcsError', kind: 'value', at: '/amount', detail: 'U64 takes an integer, not Uint8Array',
    message: 'refused: WrongType at /amount: U64 takes an integer, not Uint8Array',
  });
  assert.throws(() => payment.encode('P', { amount: 5000, to: Buffer.from('bob') }), { at: '/to', detail: 'STR takes a string, not Uint8Array' });
  assert.throws(() => payment.encode('P', 7), { message: 'refused: WrongType: P takes an object, not number' });
  assert.equal(hexOf(payment.encode('P', { to: 'bob', amount: 5000 })), '881300000000000003626f62');
});

// A string that a program may have where bytes are wanted, and that is hexadecimal by chance.
const MEMOS = ['1234', 'AbCd', 'cafe', '000000', '69b71d', '', 'hello'];

test('a string is never bytes, whatever is in it', () => {
  const note = bcs.registry('{"Note":{"STRUCT":[{"memo":{"SEQ":"U8"}},{"data":"BYTES"},{"id":{"TUPLEARRAY":{"CONTENT":"U8","SIZE":2}}}]}}');
  const right = { memo: [], data: [], id: [1, 2] };
  for (const memo of MEMOS) {
    for (const [name, takes] of [['memo', 'SEQ'], ['data', 'BYTES'], ['id', 'TUPLEARRAY']]) {
      const rejected = { kind: 'value', reason: 'WrongType', at: `/${name}`, detail: `${takes} takes bytes, or hex(…) for digits, not string` };
      assert.throws(() => note.encode('Note', { ...right, [name]: memo }), rejected);
      assert.throws(() => note.equal('Note', right, { ...right, [name]: memo }), rejected);
      assert.throws(() => note.normalise('Note', { ...right, [name]: memo }), rejected);
    }
  }
  assert.equal(hexOf(note.encode('Note', { ...right, memo: hex('1234') })), '021234000102');
  assert.equal(hexOf(note.encodeText('Note', '{"memo":"1234","data":"","id":"0102"}')), '021234000102');
});

test('names of the containers that are addresses and integers of 256 bits', () => {
  const WORD = { NEWTYPESTRUCT: { TUPLEARRAY: { CONTENT: 'U8', SIZE: 32 } } };
  const text = JSON.stringify({ AccountAddress: WORD, U256: WORD, address: WORD, u256: { NEWTYPESTRUCT: 'U64' }, Short: { NEWTYPESTRUCT: { TUPLEARRAY: { CONTENT: 'U8', SIZE: 31 } } } });
  const [one, names] = [`${'00'.repeat(31)}01`, { address: ['AccountAddress'], u256: ['U256'] }];
  const [plain, named] = [bcs.registry(text), bcs.registry(text, { names })];
  assert.equal(hexOf(named.encode('AccountAddress', '0x1')), one);
  assert.equal(named.decode('AccountAddress', hex(one)), `0x${one}`);
  assert.equal(named.withLimits({ depth: 9 }).decode('AccountAddress', hex(one)), `0x${one}`);
  assert.equal(named.decode('U256', named.encode('U256', 258)), 258n);
  assert.deepEqual(named.encode('U256', 258), Uint8Array.of(2, 1, ...new Array(30).fill(0)));
  assert.deepEqual(named.decode({ OPTION: { TYPENAME: 'AccountAddress' } }, hex(`01${one}`), { plainOptions: true }), `0x${one}`);
  assert.equal(named.decodeText('AccountAddress', hex(one)), `"${one}"`);
  assert.equal(hexOf(named.encodeText('AccountAddress', `"${one}"`)), one);
  // (the names that are given take the place of the default ones; of i256 there are still those)
  assert.deepEqual(named.decode('address', hex(one)), hex(one));
  assert.equal(plain.decode('address', hex(one)), `0x${one}`);
  assert.deepEqual(plain.decode('AccountAddress', hex(one)), hex(one));
  assert.deepEqual([plain, bcs.registry(text, { names: { address: [] } })].map((registry) => registry.decode('u256', hex('0700000000000000'))), [7n, 7n]);
  assert.throws(() => plain.encode('AccountAddress', '0x1'), { at: '', detail: 'TUPLEARRAY takes bytes, or hex(…) for digits, not string' });
  for (const wrong of [
    { address: ['Account'] }, { address: ['u256'] }, { u256: ['Short'] }, { address: ['toString'] }, { address: ['AccountAddress'], u256: ['AccountAddress'] },
    { address: ['AccountAddress', 'AccountAddress'] }, { u128: ['U256'] }, { __proto__: null, toString: [] }, { address: 'AccountAddress' }, { address: [7] }, [['U256']], null, 7, 'U256',
  ]) assert.throws(() => bcs.registry(text, { names: wrong }), TypeError, JSON.stringify(wrong));
});

test('a value that holds others many times ends at the limit on nodes, or at 512 MiB of JSON', () => {
  const shared = bcs.registry('{"T":{"NEWTYPESTRUCT":{"SEQ":{"TYPENAME":"T"}}},"E":{"STRUCT":[]}}');
  const many = Array.from({ length: 60 }).reduce((inner) => [inner, inner], []);
  const start = process.cpuUsage();
  assert.throws(() => shared.withLimits({ nodes: 100_000 }).encode('T', many), { kind: 'value', reason: 'TooManyNodes' });
  const long = new Array(1000).fill(new Array(1000).fill('x'.repeat(2000)));
  assert.throws(() => shared.encode({ SEQ: { SEQ: 'STR' } }, long), { kind: 'value', reason: 'TooLong', detail: 'the JSON of the value is above 512 MiB' });
  assert.ok(process.cpuUsage(start).user < 30_000_000, 'half a minute');
  // (a list of three containers has a node for itself and two for each)
  const units = { SEQ: { TYPENAME: 'E' } };
  assert.equal(hexOf(shared.withLimits({ nodes: 7 }).encode(units, [{}, {}, {}])), '03');
  assert.throws(() => shared.withLimits({ nodes: 6 }).encode(units, [{}, {}, {}]), { reason: 'TooManyNodes' });
  const row = { MAP: { KEY: 'U8', VALUE: { OPTION: { TUPLE: ['U8'] } } } };
  assert.equal(hexOf(shared.withLimits({ nodes: 5 }).encode(row, [[1, { some: [2] }]])), '01010102');
  assert.throws(() => shared.withLimits({ nodes: 4 }).encode(row, [[1, { some: [2] }]]), { reason: 'TooManyNodes' });
});

test('a value that holds others many times is counted before it is written, without limits too', () => {
  const shared = bcs.registry('{"T":{"NEWTYPESTRUCT":{"SEQ":{"TYPENAME":"T"}}},"S":{"STRUCT":[{"a":{"OPTION":{"TYPENAME":"S"}}},{"b":{"OPTION":{"TYPENAME":"S"}}}]}}');
  let [lists, fields, maps] = [[], { a: null, b: null }, []];
  for (let i = 0; i < 40; i++) [lists, fields, maps] = [[lists, lists], { a: { some: fields }, b: { some: fields } }, [maps, [], maps]];
  const [start, memory] = [process.cpuUsage(), process.memoryUsage().rss];
  for (const [format, value] of [['T', lists], ['S', fields], ['T', maps], ['T', [[], lists]]]) {
    for (const registry of [shared, shared.withLimits({ nodes: 2 ** 32 - 1 })]) {
      assert.throws(() => registry.encode(format, value), { kind: 'value', reason: 'TooManyNodes' });
    }
  }
  assert.ok(process.cpuUsage(start).user < 30_000_000, 'half a minute');
  assert.ok(process.memoryUsage().rss - memory < 400_000_000, '400 MB');
  // (bytes are no nodes by default, and no getter runs while the rest is counted)
  let reads = 0;
  const counted = Object.defineProperty([], 0, { get: () => ++reads, enumerable: true });
  const many = [...new Array(150_000).fill([7]), counted];
  assert.equal(shared.encode({ SEQ: { SEQ: 'U16' } }, many).length, 3 * 150_001 + 3);
  assert.equal(reads, 1);
});

test('the numbers of arrays count as nodes, before they are written', () => {
  const text = '{"S":{"STRUCT":[{"a":{"SEQ":"U64"}}]},"E":{"ENUM":{"0":{"a":{"NEWTYPE":{"SEQ":"U64"}}}}}}';
  const limited = bcs.registry(text).withLimits({ nodes: 1000 });
  const [wide, numbers, octets] = [new BigUint64Array(30000).fill(2n ** 60n), new Array(30000).fill(2 ** 40), new Uint8Array(2 ** 24)];
  const start = process.cpuUsage();
  for (const part of [wide, numbers]) {
    for (const [format, value] of [
      [{ SEQ: { SEQ: 'U64' } }, new Array(60000).fill(part)],
      [{ TUPLEARRAY: { CONTENT: { SEQ: 'U64' }, SIZE: 1000 } }, new Array(1000).fill(part)],
      [{ SEQ: { TUPLE: ['U8', { SEQ: 'U64' }] } }, new Array(60000).fill([7, part])],
      [{ MAP: { KEY: 'U64', VALUE: { SEQ: 'U64' } } }, new Array(60000).fill([7, part])],
      [{ MAP: { KEY: 'U64', VALUE: { SEQ: 'U64' } } }, new Map(Array.from({ length: 6000 }, (_, key) => [key, part]))],
      [{ SEQ: { TYPENAME: 'S' } }, new Array(60000).fill({ a: part })],
      [{ SEQ: { TYPENAME: 'E' } }, new Array(60000).fill({ a: part })],
      [{ SEQ: { OPTION: { SEQ: 'U64' } } }, new Array(60000).fill({ some: part })],
    ]) assert.throws(() => limited.encode(format, value), { kind: 'value', reason: 'TooManyNodes' }, JSON.stringify(format));
  }
  for (const part of [octets, new Array(60000).fill(7)]) {
    assert.throws(() => limited.encode({ SEQ: { SEQ: 'U8' } }, new Array(60000).fill(part)), { kind: 'value', reason: 'TooManyNodes' });
  }
  assert.ok(process.cpuUsage(start).user < 5_000_000, 'five seconds');
  // (a list has a node for itself and one for each number; a byte string is one)
  for (const part of [Uint8Array.of(1, 2), BigUint64Array.of(1n, 2n), [1, 2]]) {
    for (const item of part instanceof BigUint64Array ? ['U64'] : ['U8', 'U64']) {
      if (part instanceof Uint8Array && item === 'U64') continue;
      assert.equal(bcs.registry('{}').withLimits({ nodes: 3 }).encode({ SEQ: item }, part).length, item === 'U8' ? 3 : 17);
      assert.throws(() => bcs.registry('{}').withLimits({ nodes: 2 }).encode({ SEQ: item }, part), { kind: 'value', reason: 'TooManyNodes' });
    }
  }
  assert.equal(bcs.registry('{}').withLimits({ nodes: 1 }).encode('"BYTES"', octets.subarray(0, 1000)).length, 1002);
});

test('pointers have the escapes of JSON Pointer', () => {
  const odd = bcs.registry(JSON.stringify({ A: { STRUCT: [{ 'a/~b': { MAP: { KEY: 'U8', VALUE: { OPTION: { TYPENAME: 'A' } } } } }] } }));
  const inner = { 'a/~b': new Map([[1, null], [2, { some: { 'a/~b': [[1, { some: 'x' }]] } }]]) };
  assert.throws(() => odd.encode('A', inner), { at: '/a~1~0b/1/1/some/a~1~0b/0/1/some', detail: 'A takes an object, not string' });
});

test('values within themselves, deep ones and formats without an end are rejected at once', () => {
  const deep = bcs.registry('{"T":{"NEWTYPESTRUCT":{"SEQ":{"TYPENAME":"T"}}},"X":{"NEWTYPESTRUCT":{"TYPENAME":"X"}},"S":{"STRUCT":[{"s":{"OPTION":{"TYPENAME":"S"}}}]},"M":{"NEWTYPESTRUCT":{"MAP":{"KEY":{"TYPENAME":"M"},"VALUE":"U8"}}}}');
  const [list, struct, map] = [[], { s: null }, new Map()];
  list.push(list, list, 7);
  struct.s = { some: struct };
  map.set(map, 7);
  const isTooNested = (error) => error instanceof BcsError && error.kind === 'value' && error.reason === 'TooNested';
  for (const [format, value] of [['T', list], ['S', struct], ['M', map]]) assert.throws(() => deep.encode(format, value), isTooNested);
  const nested = (count) => Array.from({ length: count - 1 }).reduce((inner) => [inner], []);
  assert.equal(hexOf(deep.encode('T', nested(100))), '01'.repeat(99) + '00');
  for (const count of [101, 102, 100_000]) assert.throws(() => deep.encode('T', nested(count)), isTooNested);
  const words = 'arrays and objects are nested more than 100 levels deep';
  assert.throws(() => deep.encode('T', nested(101)), { at: '/0'.repeat(100), detail: words });
  assert.throws(() => deep.encodeText('T', '['.repeat(101) + ']'.repeat(101)), { reason: 'TooNested', detail: words });
  assert.throws(() => deep.encode('X', null), (error) => error.kind === 'text' && error.reason === 'TooDeep');
  let reads = 0;
  const endless = new Proxy([], { get: (_, name) => (name === 'length' ? 1 : (reads++, endless)) });
  assert.throws(() => deep.encode('T', endless), isTooNested);
  assert.equal(reads, 100);
});

test('bad formats are rejected before a value is read', () => {
  let reads = 0;
  const value = new Proxy({}, { get: () => reads++, ownKeys: () => (reads++, []) });
  for (const format of ['Nope', '{"SEQ":', { SEQ: 'U7' }, '"TYPENAME"', { TYPENAME: 'Nope' }, { MAP: {} }]) {
    assert.throws(() => registry.encode(format, value), (error) => error instanceof BcsError && error.kind === 'format');
  }
  for (const format of ['{"TYPENAME":"\ud800"}', 7, undefined, null, []]) assert.throws(() => registry.encode(format, value), TypeError);
  assert.equal(reads, 0);
});

test('a format is the JSON that it is, and a name only where it is a string', () => {
  const named = bcs.registry('{"7":{"NEWTYPESTRUCT":"U8"},"null":{"NEWTYPESTRUCT":"U16"}}');
  assert.equal(hexOf(named.encode('7', 1)), '01');
  assert.equal(hexOf(named.encode('null', 1)), '0100');
  for (const format of [7, null]) assert.throws(() => named.encode(format, 1), TypeError);
});

/** An array with two items whose length is said to be another. */
const arrayOfLength = (length) => new Proxy([1, 2], { get: (items, name) => (name === 'length' ? length : items[name]) });
const LENGTHLESS = [{ SEQ: 'U8' }, 'BYTES', { SEQ: 'U16' }, { SEQ: 'STR' }, { TUPLE: ['U8', 'U8'] }, { MAP: { KEY: 'U8', VALUE: 'U8' } }].map((format) => JSON.stringify(format));

test('an array whose length is no count is rejected, and never read as an empty one', () => {
  for (const length of [-1, -Infinity, NaN, 1.5, 2 ** 53, Infinity, '1', '', null, undefined, {}, 1n, Symbol('a')]) {
    for (const format of LENGTHLESS) {
      const wrong = { kind: 'value', reason: 'WrongType', at: '', message: /, not an array without a valid length$/ };
      assert.throws(() => registry.encode(format, arrayOfLength(length)), wrong, `${format}, ${String(length)}`);
    }
    assert.throws(() => registry.decode('"UNIT"', arrayOfLength(length)), TypeError);
  }
  assert.equal(hexOf(registry.encode('{"SEQ":"U8"}', arrayOfLength(1))), '0101');
  assert.equal(hexOf(registry.encode('{"SEQ":"U16"}', arrayOfLength(0))), '00');
});

// Random values there and back, in any of the ways in which `encode` takes them.

let state = 20261128;
function below(most) {
  state = (Math.imul(state, 1664525) + 1013904223) >>> 0;
  return Math.floor((state / 2 ** 32) * most);
}
const oneOf = (choices) => choices[below(choices.length)];
const same = (value) => ({ given: value, taken: value });
const paired = (values) => ({ given: values.map(({ given }) => given), taken: values.map(({ taken }) => taken) });
const textOf = (digits) => Buffer.from(digits, 'hex').toString();

function octets(digits) {
  const given = hex(digits);
  const numbers = [...given];
  const ways = [given, given.buffer, Buffer.from(numbers), Uint8ClampedArray.from(numbers), hex(digits.toUpperCase()), numbers];
  return { given, taken: oneOf([...ways, numbers.map(BigInt), Uint16Array.from(numbers), BigInt64Array.from(numbers.map(BigInt))]) };
}

function address(digits) {
  const ways = [hex(digits), [...hex(digits)], `0x${digits}`, `0x${digits.toUpperCase()}`, `0x${digits.replace(/^0{1,63}/, '')}`];
  return { given: `0x${digits}`, taken: oneOf(ways) };
}

const NARROW = ['U8', 'U16', 'U32', 'I8', 'I16', 'I32'];

function integer(word, digits) {
  const number = BigInt(digits);
  const isSafe = Number.isSafeInteger(Number(number));
  return { given: NARROW.includes(word) ? Number(number) : number, taken: oneOf([number, isSafe ? Number(number) : number]) };
}

function members(names, values) {
  const of = (which) => values.map((value, i) => [textOf(names[i]), value[which]]);
  return { given: Object.fromEntries(of('given')), taken: Object.fromEntries(of('taken').sort(() => below(3) - 1)) };
}

function mapOf(parts) {
  const entries = parts.flatMap((key, i) => (i % 2 ? [] : [[key, parts[i + 1]]]));
  const taken = entries.map(([key, held]) => [key.taken, held.taken]).sort(() => below(3) - 1);
  const isMap = below(2) && new Set(taken.map(([key]) => key)).size === taken.length;
  return { given: new Map(entries.map(([key, held]) => [key.given, held.given])), taken: isMap ? new Map(taken) : taken };
}

/** The value of words of tests/rows/random_values.py, as `decode` gives it, and the same as one of the things that `encode` takes. */
function drawn(words) {
  const made = [];
  const last = (count) => made.splice(made.length - count);
  const makers = {
    unit: () => same(null), none: () => same(null), true: () => same(true), false: () => same(false), newtype: () => made.pop(),
    text: (rest) => same(textOf(rest)), bytes: octets, octets, 'octet-array': octets, address,
    list: (rest) => paired(last(rest)), array: (rest) => paired(last(rest)), tuple: (rest) => paired(last(rest)),
    some: () => members(['736f6d65'], last(1)), map: (rest) => mapOf(last(2 * rest)), struct: (_, names) => members(names, last(names.length)),
    variant: (_, [payload, name]) => {
      const object = members([name], [payload === 'UNIT' ? same(null) : made.pop()]);
      return payload === 'UNIT' ? { given: textOf(name), taken: oneOf([textOf(name), object.taken]) } : object;
    },
  };
  for (const word of words.split(' ')) {
    const [start, ...names] = word.split('.');
    const [kind, rest] = start.replace('key-', '').split(':');
    made.push(kind in makers ? makers[kind](rest, names) : integer(kind, rest));
  }
  return made[0];
}

test('random values there and back', () => {
  const script = new URL('../../../tests/rows/random_values.py', import.meta.url).pathname;
  const lines = execFileSync(script, ['2500'], { encoding: 'utf8', maxBuffer: 2 ** 30 }).trimEnd().split('\n');
  let [known, drawnIn] = [undefined, undefined];
  for (const line of lines) {
    const [text, formatText, words, digits] = line.split('\t');
    if (text !== known) {
      drawnIn?.close();
      [known, drawnIn] = [text, bcs.registry(text)];
    }
    const { given, taken } = drawn(words);
    const asked = formatText.startsWith('{') ? JSON.parse(formatText) : formatText;
    assert.equal(hexOf(drawnIn.encode(asked, taken)), digits, line);
    const bytes = Buffer.from(digits, 'hex');
    assert.deepEqual(drawnIn.decode(asked, bytes), given);
    assert.equal(hexOf(drawnIn.encode(asked, drawnIn.decode(asked, bytes))), digits);
    assert.equal(hexOf(drawnIn.encode(asked, drawnIn.decode(asked, bytes, { plainOptions: true }))), digits);
  }
  assert.equal(lines.length, 50_000);
});
