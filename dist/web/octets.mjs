// What callers pass as bytes and as typed arrays, and base64.

// The language's own accessors report what an object really is. `instanceof` trusts any prototype, `length` may be overridden,
// and both can run the caller's code; these three do neither, and they know objects of other realms.
const typedArrayTag = getterOf(Object.getPrototypeOf(Uint8Array.prototype), Symbol.toStringTag);
const bufferLength = getterOf(ArrayBuffer.prototype, 'byteLength');
const mapSize = getterOf(Map.prototype, 'size');
const BYTE_ARRAYS = ['Uint8Array', 'Uint8ClampedArray'];
const INTEGER_ARRAYS = { Int8Array, Int16Array, Uint16Array, Int32Array, Uint32Array, BigInt64Array, BigUint64Array };

function getterOf(prototype, name) {
  return Object.getOwnPropertyDescriptor(prototype, name).get;
}

function has(getter, value) {
  try {
    getter.call(value);
    return true;
  } catch {
    return false;
  }
}

export function isMap(value) {
  return !Array.isArray(value) && has(mapSize, value);
}

/**
 * A copy of an object that holds bytes: a `Uint8Array`, a `Uint8ClampedArray` or an `ArrayBuffer`. `undefined` for anything
 * else, and a `TypeError` where the buffer is detached or was cut below the array's end.
 */
export function copyOfBytes(value) {
  if (BYTE_ARRAYS.includes(typedArrayTag.call(value))) return new Uint8Array(value);
  // (arrays come often, and a getter that fails takes long)
  return !Array.isArray(value) && has(bufferLength, value) ? new Uint8Array(new Uint8Array(value)) : undefined;
}

/** The same of a typed array of other integers. */
export function copyOfIntegers(value) {
  const IntegerArray = INTEGER_ARRAYS[typedArrayTag.call(value)];
  return IntegerArray && new IntegerArray(value);
}

const BYTES = 'a Uint8Array, an ArrayBuffer or an array of numbers from 0 to 255';

/** A copy of bytes: of an object that holds them, or an array of numbers from 0 to 255. */
export function bytesOfAny(given, wanted = `bytes are ${BYTES}`) {
  const bytes = copyOfBytes(given) ?? (Array.isArray(given) ? bytesOfNumbers(given) : undefined);
  if (bytes !== undefined) return bytes;
  throw new TypeError(wanted);
}

export const TEXT_WANTED = `a text is a string, or UTF-8 in ${BYTES}; JSON.stringify makes JSON of an object`;

/** Reads each item once, since that may run the caller's code, which may answer differently the next time. */
function bytesOfNumbers(numbers) {
  const [bytes, { length }] = [[], numbers];
  if (!isLength(length)) return undefined;
  for (let i = 0; i < length; i++) {
    const number = numbers[i];
    if (!isByte(number)) return undefined;
    bytes.push(number);
  }
  return Uint8Array.from(bytes);
}

/** Whether this can be the length of an array: a proxy may have any other. */
export function isLength(length) {
  return Number.isSafeInteger(length) && length >= 0;
}

function isByte(number) {
  return Number.isInteger(number) && number >= 0 && number <= 255;
}

/** Bytes by base64, with `+`, `/` and `=` (RFC 4648, section 4). */
export function toBase64(bytes) {
  let text = '';
  for (const byte of bytesOfAny(bytes)) text += String.fromCharCode(byte);
  return btoa(text);
}

/** The bytes of such a text. It has nothing else in it, neither blanks nor line ends. */
export function fromBase64(text) {
  const isBase64 = typeof text === 'string' && text.length % 4 === 0 && /^[A-Za-z0-9+/]*={0,2}$/.test(text);
  const bytes = isBase64 ? Uint8Array.from(atob(text), (sign) => sign.charCodeAt(0)) : undefined;
  // (bits that are left over have to be 0, so that one text has the bytes)
  if (bytes === undefined || toBase64(bytes) !== text) throw new TypeError('this is no base64');
  return bytes;
}
