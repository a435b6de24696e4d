// Registries that are made from the modules of a Move chain.
import { BcsError } from './errors.mjs';
import { bytesOf, stringOfUtf8 } from './texts.mjs';

/** What callers pass as types: one on each line, as the module reads them. It would skip an empty one. */
export function linesOfTypes(types) {
  const isList = typeof types === 'object' && typeof types?.[Symbol.iterator] === 'function';
  if (!isList) throw new TypeError('types are an array of strings');
  const lines = Array.from(types, lineOfType);
  return bytesOf(lines.join(''));
}

function lineOfType(type) {
  if (typeof type !== 'string') throw new TypeError(`a type is a string, not ${type === null ? 'null' : typeof type}`);
  if (type === '') throw badType(type, '"" isn\'t a type');
  if (type.includes('\n')) throw badType(type, 'a type has no line feed');
  return `${type}\n`;
}

function badType(at, detail) {
  return new BcsError('modules', { reason: 'BadType', at, detail });
}

/** The registry's JSON, which has no line feed, and the notes behind it. */
export function madeRegistryOf(output) {
  const text = stringOfUtf8(output);
  const end = text.indexOf('\n');
  return end < 0 ? { json: text, notes: '' } : { json: text.slice(0, end), notes: text.slice(end + 1) };
}
