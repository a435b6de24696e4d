// What `explain` shows besides the pieces of a value: those inside byte strings, and Move's own types.
import { BcsError } from './errors.mjs';
import { bytesOf } from './texts.mjs';

const EXPECTED_NAME = 'expected a name such as .payload.args[1]';
const NO_CONTAINER = 'the registry has no newtype of 32 bytes with this name';
const MISSING = {
  inside: 'the registry has no such format',
  calls: 'the registry has no arguments of this function',
  addresses: NO_CONTAINER,
  u256s: NO_CONTAINER,
  i256s: NO_CONTAINER,
};
// The words of the module, by the members that callers pass.
const VIEW_WORDS = { inside: 'inside', calls: 'call', addresses: 'address', u256s: 'u256', i256s: 'i256' };

/**
 * The views that a caller requests: the member that has each, its name, and its line for the module. `formatOf` finds the format
 * that the caller names.
 */
export function viewsOf(given, formatOf) {
  if (typeof given !== 'object' || given === null) throw new TypeError('views are an object with inside, calls, addresses, u256s or i256s');
  const unknown = Object.keys(given).find((member) => !Object.hasOwn(VIEW_WORDS, member));
  if (unknown !== undefined) throw new TypeError(`no view is called ${unknown}`);
  return Object.keys(VIEW_WORDS).flatMap((member) => viewsIn(member, given[member], formatOf));
}

function viewsIn(member, given, formatOf) {
  if (given === undefined) return [];
  if (member === 'inside') return namedIn(member, given, (format) => formatOf(format));
  if (member === 'calls') return namedIn(member, given, functionOf);
  const isList = typeof given === 'object' && typeof given?.[Symbol.iterator] === 'function';
  if (!isList) throw new TypeError(`${member} are an array of names`);
  return Array.from(given, (name) => viewOf(member, stringOfName(member, name), ''));
}

function functionOf(name) {
  if (typeof name !== 'string') throw new TypeError('calls: a function is a string');
  return { text: name };
}

function namedIn(member, given, found) {
  const isObject = Object.prototype.toString.call(given) === '[object Object]';
  if (!isObject) throw new TypeError(`${member} is an object by the names of byte strings`);
  return Object.entries(given).map(([name, named]) => {
    const format = found(named);
    if (!endsOutsideQuotes(name)) throw badName(name, EXPECTED_NAME);
    return { ...viewOf(member, name, `=${format.text}`), format: member === 'inside' ? format : undefined };
  });
}

function stringOfName(member, name) {
  if (typeof name === 'string') return name;
  throw new TypeError(`${member}: a name is a string`);
}

function viewOf(member, name, rest) {
  if (`${name}${rest}`.includes('\n')) throw badName(name, `${member}: a line feed, which no view may have`);
  return { member, name, line: bytesOf(`${VIEW_WORDS[member]} ${name}${rest}`) };
}

function badName(at, detail) {
  return new BcsError('path', { reason: 'BadPath', at, detail });
}

/** Whether a `=` behind the name ends it, since it has none outside quotes. */
function endsOutsideQuotes(name) {
  const outside = name.replace(/"(?:[^"\\]|\\.)*"/gs, '');
  return name !== '' && !/[="]/.test(outside);
}

/** The lines for the module. */
export function linesOfViews(views) {
  const length = views.reduce((sum, { line }) => sum + line.length + 1, 0);
  const lines = new Uint8Array(length);
  let at = 0;
  for (const { line } of views) {
    lines.set(line, at);
    lines[at + line.length] = 10;
    at += line.length + 1;
  }
  return lines;
}

/** The refusal of a view: of its name with the status `path`, and else of its format, function or container. */
export function refusedView({ member, name }, status, told = {}) {
  if (status === 'path') return { at: name, detail: `${member}: ${EXPECTED_NAME}` };
  return { at: told.at ?? '', detail: `${member} ${name}: ${told.detail ?? MISSING[member]}` };
}
