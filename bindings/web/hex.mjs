// Bytes as hexadecimal digits, and back.
const DIGITS = Array.from({ length: 256 }, (_, byte) => byte.toString(16).padStart(2, '0'));
// (in the order of this machine's bytes)
const PAIRS = new Uint16Array(Uint8Array.from(DIGITS.join(''), (digit) => digit.charCodeAt(0)).buffer);
// By the code of a digit what it adds to a byte as its first or second one; for all other codes NONE.
const NONE = 256;
const FIRST = Uint16Array.from({ length: 128 }, (_, code) => valueOfDigit(code, 16));
const SECOND = Uint16Array.from({ length: 128 }, (_, code) => valueOfDigit(code, 1));
// Appending to a string costs memory for each piece, so more bytes than this become an array of digits first.
const FEW = 256;
// Node has more bytes than half of this in a buffer of their own.
const LONG = 1 << 15;
const PIECE = 1 << 20;
const ascii = new TextDecoder();

function valueOfDigit(code, factor) {
  const character = String.fromCharCode(code);
  return /[0-9a-fA-F]/.test(character) ? parseInt(character, 16) * factor : NONE;
}

/** Two digits for each byte, in lower case. */
export function hexOf(bytes) {
  if (bytes.length > FEW) {
    const pairs = new Uint16Array(bytes.length);
    putHex(bytes, pairs);
    return ascii.decode(pairs);
  }
  let digits = '';
  for (const byte of bytes) digits += DIGITS[byte];
  return digits;
}

/** Writes these digits in ASCII, two for each item of an array. */
export function putHex(bytes, pairs) {
  if (bytes.length > LONG && globalThis.Buffer !== undefined) return putByNode(bytes, pairs);
  for (let i = 0; i < bytes.length; i++) pairs[i] = PAIRS[bytes[i]];
  return undefined;
}

/** The same in Node, whose own code is several times as fast. Its strings take memory, so it goes piece by piece. */
function putByNode(bytes, pairs) {
  const bufferOf = ({ buffer, byteOffset, byteLength }) => globalThis.Buffer.from(buffer, byteOffset, byteLength);
  const [from, to] = [bufferOf(bytes), bufferOf(pairs)];
  for (let i = 0; i < from.length; i += PIECE) to.write(from.toString('hex', i, i + PIECE), 2 * i, 'latin1');
}

/** The bytes of hexadecimal digits, for values that have them: `hex('0aff')`. */
export function hex(digits) {
  const bytes = typeof digits === 'string' ? bytesOfHex(digits) : undefined;
  if (bytes !== undefined) return bytes;
  throw new TypeError('hex takes a string of two hexadecimal digits for each byte, without 0x');
}

/** The bytes of digits of either case, or `undefined` where the text is no even number of digits. */
export function bytesOfHex(digits) {
  const bytes = new Uint8Array(digits.length >> 1);
  let all = digits.length % 2 === 0 ? 0 : NONE;
  for (let i = 0; i < bytes.length; i++) {
    const byte = (FIRST[digits.charCodeAt(2 * i)] ?? NONE) | (SECOND[digits.charCodeAt(2 * i + 1)] ?? NONE);
    all |= byte;
    bytes[i] = byte;
  }
  return all < NONE ? bytes : undefined;
}

/**
 * The bytes of digits that the module returned, which are nothing else. Node's own code is several times as fast, and takes some
 * other characters for digits.
 */
export function bytesOfDigits(digits) {
  if (digits.length <= LONG || globalThis.Buffer === undefined) return bytesOfHex(digits);
  const { buffer, byteOffset, length } = globalThis.Buffer.from(digits, 'hex');
  return new Uint8Array(buffer, byteOffset, length);
}
