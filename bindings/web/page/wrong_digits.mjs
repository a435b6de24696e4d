// What is wrong with a text that isn't hexadecimal digits, or isn't base64, and where.
import { shownName } from './names.mjs';

const IS_DIGITS = /^\s*(0\s*x)?[0-9a-f\s]*$/i;
const IS_BASE64 = /^[A-Za-z0-9+/=\s]*$/;
const WORDS_FOR_START = {
  '{': 'this looks like JSON; paste it under JSON',
  '[': 'this looks like JSON; paste it under JSON',
};
const WORDS_FOR_SIGN = {
  '"': 'digits have no quotation marks; remove them',
  "'": 'digits have no quotation marks; remove them',
  ':': 'there are no colons between digits; remove them',
  ',': 'there are no commas between digits; remove them',
  '\\': '\\x isn’t part of the digits; remove it',
};

// An offset of six to eight digits, and a shorter word: how lines of od, hexdump and xxd begin.
const DUMP = /^\s*([0-9a-f]{6,8}):?[ \t]+([0-9a-f]+)/i;

/** Whether a text is a dump: its offsets are digits, too, and some dumps swap the bytes of each word. */
export function isDump(text) {
  const [, offset, word] = DUMP.exec(text) ?? [];
  return offset !== undefined && word.length < offset.length;
}

/** What is wrong with digits: `{ words, place }`. If one is missing, no place is wrong. */
export function wrongDigits(text) {
  if (isDump(text)) {
    const words = 'a dump, with an offset before the bytes of each line; paste plain digits (xxd -p -c0)';
    return { words, place: text.search(/\S/) };
  }
  const [prefix] = /^\s*(0\s*x)?/i.exec(text);
  const place = text.slice(prefix.length).search(/[^0-9a-f\s]/i) + prefix.length;
  if (place < prefix.length) return { words: 'a digit is missing; each byte has two' };
  const sign = signAt(text, place);
  const known = (text.trimStart()[0] === sign && WORDS_FOR_START[sign]) || WORDS_FOR_SIGN[sign];
  if (known) return { words: known, place };
  if (/x/i.test(sign) && text[place - 1] === '0') return { words: '0x is only allowed at the start; remove it', place };
  const advice = IS_BASE64.test(text) ? '; if this is base64, choose that' : '';
  return { words: `${shownName(sign)} isn’t a hexadecimal digit${advice}`, place };
}

/** The same of base64. */
export function wrongBase64(text) {
  const advice = IS_DIGITS.test(text) ? '; if these are hexadecimal digits, choose that' : '';
  const place = text.search(/[^A-Za-z0-9+/=\s]|=(?=\s*[^=\s])/);
  if (place >= 0) return { words: wordsForBase64(signAt(text, place)), place };
  const count = text.replace(/[=\s]+/g, '').length;
  if (count % 4 === 1) return { words: `a character is missing, or there is one too many${advice}` };
  if (text.replace(/\s+/g, '').length % 4 !== 0) return { words: `the padding is missing or wrong; with its = signs, base64 has a multiple of four characters${advice}` };
  return { words: 'bits are left over in the last character; one is missing or wrong', place: text.search(/[^=\s][=\s]*$/) };
}

function wordsForBase64(sign) {
  if (sign === '-' || sign === '_') return 'this is the alphabet for URLs; write + for -, and / for _';
  return sign === '=' ? '= is only allowed at the end' : `${shownName(sign)} isn’t a character of base64`;
}

function signAt(text, place) {
  return String.fromCodePoint(text.codePointAt(place));
}
