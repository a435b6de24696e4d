// Bytes as the page shows them: hexadecimal digits or base64. Which of the two is chosen, and never guessed.
import { bytesOfHex, hexOf } from '../hex.mjs';
import { fromBase64, toBase64 } from '../octets.mjs';
import { isDump, wrongBase64, wrongDigits } from './wrong_digits.mjs';

/** Bytes as a text. */
export function coded(bytes, coding) {
  return coding === 'base64' ? toBase64(bytes) : hexOf(bytes);
}

/**
 * The bytes of a text, which may have white space in it, or why it has none: `{ bytes }` or `{ fault }`. A fault has `words` and,
 * if a character is wrong, its `place`.
 */
export function decoded(text, coding) {
  const bytes = coding === 'base64' ? ofBase64(text) : ofDigits(text);
  if (bytes !== undefined) return { bytes };
  return { fault: coding === 'base64' ? wrongBase64(text) : wrongDigits(text) };
}

function ofDigits(text) {
  return isDump(text) ? undefined : bytesOfHex(text.replace(/\s+/g, '').replace(/^0x/i, ''));
}

function ofBase64(text) {
  try {
    return fromBase64(text.replace(/\s+/g, ''));
  } catch {
    return undefined;
  }
}
