// Strings as UTF-8, and back. A lone surrogate is rejected, since it would turn into another character.
import { BcsError } from './errors.mjs';
import { bytesOfAny, TEXT_WANTED } from './octets.mjs';

const SHORT_TEXT = 8192;
const encoder = new TextEncoder();
// Where the bytes of short texts are stored while a call is made, since a new array for each takes longer.
const shortText = new Uint8Array(3 * SHORT_TEXT);
// (a byte order mark is a character as any other)
const decoder = new TextDecoder('utf-8', { fatal: true, ignoreBOM: true });

/** What a caller passes as JSON, a name or a path, as bytes. */
export function bytesOf(text) {
  return typeof text === 'string' ? encoder.encode(wellFormed(text)) : bytesOfAny(text, TEXT_WANTED);
}

/** The same for one call, before any other. */
export function bytesForCall(text) {
  if (typeof text !== 'string' || text.length > SHORT_TEXT) return bytesOf(text);
  return shortText.subarray(0, encoder.encodeInto(wellFormed(text), shortText).written);
}

/** What the module returned as UTF-8. */
export function stringOfUtf8(bytes) {
  try {
    return decoder.decode(bytes);
  } catch (cause) {
    // (the module returns UTF-8, so only the length can be at fault)
    throw new BcsError('memory', { detail: 'this engine has no string that long', cause });
  }
}

export function wellFormed(text) {
  if (isWellFormed(text)) return text;
  throw new TypeError('the text has a lone surrogate, which UTF-8 has not');
}

export function isWellFormed(string) {
  return string.isWellFormed?.() ?? !/\p{Surrogate}/u.test(string);
}
