// Writes random values for TypeScript to judge: typed_values.mjs REGISTRY.json TYPES, with the module that BCS_WASM names. Of
// each container with values some are made in any of the ways in which `encode` takes them, encoded and decoded. Each is
// written twice with its type of the module TYPES: as it was passed, and as `decode` returned it, which `encode` has to accept, too.
import assert from 'node:assert/strict';
import { readFileSync } from 'node:fs';
import { BcsError, load } from '../bcs.mjs';
import { hexOf } from '../hex.mjs';
import { Shapes } from '../shapes.mjs';

const [file, types] = process.argv.slice(2);
const EACH = 3;
const plainOptions = types.startsWith('plain_');
const bcs = await load(readFileSync(process.env.BCS_WASM));
const text = readFileSync(file, 'utf8');
const registry = bcs.registry(text);
const containers = new Map(Object.entries(JSON.parse(text)));
const shapes = new Shapes(containers);

// A generator with a seed, so that each run is the same.
let state = 12345;
function below(most) {
  state = (Math.imul(state, 1103515245) + 12345) >>> 0;
  return (state >>> 8) % most;
}
const oneOf = (choices) => choices[below(choices.length)];
const many = (most, make) => Array.from({ length: below(most + 1) }, make);

/** There is no value of this format, or none within so many containers. */
class NoValue extends Error {}

const TEXTS = ['', 'a', '"', '\\', '*/', '\u2028', '名前', '😀', '${x}', '\0'];

function leaf(word) {
  if (['CHAR', 'F32', 'F64'].includes(word)) throw new NoValue();
  if (word === 'UNIT') return null;
  if (word === 'BOOL') return oneOf([true, false]);
  if (word === 'STR') return oneOf(TEXTS) + oneOf(TEXTS);
  if (word === 'BYTES') return oneOf([(bytes) => bytes, (bytes) => bytes.buffer, (bytes) => [...bytes]])(octets(below(4)));
  const [, sign, digits] = /^([UI])(\d+)$/.exec(word.toUpperCase());
  const most = 2n ** BigInt(digits - (sign === 'I')) - 1n;
  const number = oneOf([0n, 1n, most, most - BigInt(below(100)), sign === 'I' ? -1n - most : 7n]);
  return Number.isSafeInteger(Number(number)) ? oneOf([number, Number(number)]) : number;
}

function address() {
  const bytes = octets(32);
  return oneOf([bytes, bytes.buffer, [...bytes], `0x${hexOf(bytes)}`, `0x${below(1000)}`]);
}

function octets(length) {
  return Uint8Array.from({ length }, () => below(256));
}

function list(format, length, deep) {
  if (format !== 'U8') return Array.from({ length }, () => value(format, deep));
  return oneOf([(bytes) => bytes, (bytes) => bytes.buffer, (bytes) => [...bytes]])(octets(length));
}

function value(format, deep) {
  if (typeof format === 'string') return leaf(format);
  const [[kind, inner]] = Object.entries(format);
  switch (kind) {
    case 'TYPENAME':
      if (deep === 0) throw new NoValue();
      if (inner === 'address') return address();
      if (['u256', 'i256'].includes(inner)) return leaf(inner);
      return content(containers.get(inner), deep - 1);
    case 'OPTION':
      return orNone(() => some(format, value(inner, deep)), null);
    case 'SEQ':
      return orNone(() => list(inner, below(3), deep), []);
    case 'TUPLEARRAY':
      return list(inner.CONTENT, inner.SIZE, deep);
    case 'MAP':
      return orNone(() => new Map(many(3, () => [value(inner.KEY, deep), value(inner.VALUE, deep)])), new Map());
    default:
      return inner.map((part) => value(part, deep));
  }
}

/** An option of a value, which is written in both ways where there are two. */
function some(option, held) {
  const isPlain = shapes.isPlainOption(shapes.of(option)) && below(2) === 0;
  return isPlain ? held : { some: held };
}

/** What is made, or sometimes, and where there is no value, the other. */
function orNone(make, none) {
  try {
    return below(4) === 0 ? none : make();
  } catch (error) {
    if (error instanceof NoValue) return none;
    throw error;
  }
}

function content(held, deep) {
  if (['UNITSTRUCT', 'UNIT'].includes(held)) return null;
  const [[kind, inner]] = Object.entries(held);
  switch (kind) {
    case 'NEWTYPESTRUCT':
    case 'NEWTYPE':
      return value(inner, deep);
    case 'TUPLESTRUCT':
    case 'TUPLE':
      return inner.map((part) => value(part, deep));
    case 'STRUCT':
      return Object.fromEntries(inner.map((field) => Object.entries(field)[0]).map(([name, part]) => [name, value(part, deep)]));
    default:
      return variant(Object.values(inner), deep);
  }
}

function variant(variants, deep) {
  if (variants.length === 0) throw new NoValue();
  const [[name, held]] = Object.entries(oneOf(variants));
  return held === 'UNIT' ? name : Object.fromEntries([[name, content(held, deep)]]);
}

/** A value as TypeScript has it, in ASCII. */
function written(value) {
  if (typeof value === 'bigint') return `${value}n`;
  if (value === null || typeof value !== 'object') return ascii(value);
  if (value instanceof Uint8Array) return `Uint8Array.of(${value})`;
  if (value instanceof ArrayBuffer) return `Uint8Array.of(${new Uint8Array(value)}).buffer as ArrayBuffer`;
  if (Array.isArray(value)) return `[${value.map(written).join(', ')}]`;
  if (value instanceof Map) return `map([${[...value].map(written).join(', ')}])`;
  // (between `[` and `]`, since __proto__ would be no member)
  return `{ ${Object.entries(value).map(([name, held]) => `[${ascii(name)}]: ${written(held)}`).join(', ')} }`;
}

function ascii(value) {
  return JSON.stringify(value).replace(/[^ -~]/g, (unit) => `\\u${unit.charCodeAt(0).toString(16).padStart(4, '0')}`);
}

/** A value, its bytes, and what they decode to; or nothing, if two keys are equal or the format has no value. */
function tried(name) {
  const format = { TYPENAME: name };
  try {
    const given = value(format, 8);
    const bytes = registry.encode(format, given);
    const back = registry.decode(format, bytes, { plainOptions });
    assert.deepEqual(registry.encode(format, back), bytes);
    return [given, back];
  } catch (error) {
    if (error instanceof NoValue || (error instanceof BcsError && error.reason === 'RepeatedKey')) return undefined;
    throw error;
  }
}

// (`new Map` would take its type from the first entry, and not from the declared one)
const map = `declare function map<M>(entries: M extends ReadonlyMap<infer K, infer V> ? readonly (readonly [K, V])[] : never): M;`;
const lines = [`import type { Types as T } from './${types}.mjs';`, map];
for (const name of containers.keys()) {
  for (const [given, back] of Array.from({ length: EACH }, () => tried(name)).filter((pair) => pair !== undefined)) {
    const [at, of] = [lines.length, `T[${ascii(name)}]`];
    lines.push(`export const given${at}: ${of}['encode'] = ${written(given)};`);
    lines.push(`export const back${at}: ${of}['${plainOptions ? 'plain' : 'decode'}'] = ${written(back)};`);
    lines.push(`export const again${at}: ${of}['encode'] = back${at};`);
  }
}
console.log(lines.join('\n'));
