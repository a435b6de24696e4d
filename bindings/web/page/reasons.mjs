// What the reasons of a refusal mean, in a sentence each. docs/ENCODING.md and docs/JSON.md have the rules.
import { shownName } from './names.mjs';

const NO_CANONICAL = 'F32, F64 and CHAR have no canonical bytes.';
const TOO_DEEP = 'More than 500 containers are nested.';
const TOO_MANY = 'The value has more parts than this page accepts.';
const REASONS = {
  registry: {
    NotJson: 'The registry isn’t valid JSON.',
    BadShape: 'This isn’t a registry, which is an object of containers: each a UNITSTRUCT, STRUCT, ENUM and so on.',
    BadNumber: 'The number of a variant, or a SIZE, is out of range, or isn’t written as a plain decimal number.',
    TooNested: 'A format in the registry has more than 32 levels.',
    RepeatedName: 'Two fields of a struct, or two variants of an enum, have the same name.',
    UnknownName: 'The registry has no container with the name in a TYPENAME.',
  },
  format: {
    NotJson: 'The format isn’t valid JSON.',
    BadShape: 'This isn’t a format, such as "U8", {"SEQ":"STR"} or {"TYPENAME":"Name"}.',
    BadNumber: 'A SIZE is out of range, or isn’t written as a plain decimal number.',
    TooNested: 'The format has more than 32 levels.',
    UnknownName: 'The registry has no container with this name.',
  },
  text: {
    NotJson: 'This isn’t valid JSON.',
    TooNested: 'Arrays and objects are nested more than 100 levels deep.',
    Unsupported: NO_CANONICAL,
    BadShape: 'This JSON doesn’t match the format.',
    BadNumber: 'A number is out of range, or isn’t a plain whole number.',
    BadHex: 'Bytes are written as two digits each, 0 to 9 and a to f, without 0x.',
    UnknownField: 'An object has a member that isn’t a field.',
    MissingField: 'A field is missing.',
    UnknownVariant: 'The enum has no variant with this name.',
    TooDeep: TOO_DEEP,
    TooManyNodes: TOO_MANY,
    TooLong: 'A length is above 2147483647.',
    RepeatedKey: 'Two keys of a map are equal.',
  },
  bytes: {
    EndOfInput: 'The bytes end before the value does.',
    BadBool: 'A truth value is 00 or 01.',
    BadOption: 'An option begins with 00 or 01.',
    LongForm: 'A number is written with more bytes than it needs.',
    NumberTooLarge: 'A length or the number of a variant is above 4294967295.',
    LengthTooLarge: 'A length is above 2147483647.',
    UnknownVariant: 'The enum has no variant with this number.',
    BadUtf8: 'A text isn’t valid UTF-8.',
    KeyOrder: 'The keys of a map must be in ascending order.',
    KeyRepeated: 'A key of a map is repeated.',
    TooDeep: TOO_DEEP,
    TrailingBytes: 'The value has ended, and more bytes follow.',
    TooManyNodes: TOO_MANY,
    Unsupported: NO_CANONICAL,
    TooNested: 'The bytes are a value, but arrays and objects of its JSON would nest more than 100 levels deep.',
  },
};
// Of these, the library only repeats what the sentence says.
const WHOLE = ['TooNested', 'TooManyNodes', 'TooLong', 'RepeatedKey'];
const EXPECTED_BY_SENTENCE = ['TrailingBytes', 'Unsupported'];
const LINE = /^line \d+, column \d+(: |$)/;

/** A sentence on a refusal, or an empty text if there is no sentence for it. */
export function sentenceOn(kind, reason) {
  return REASONS[kind]?.[reason] ?? '';
}

/** What is wrong with JSON. A button beside it has the line and the column, so they aren't repeated. */
export function toldOfText({ reason, at, detail = '' }) {
  const sentence = sentenceOn('text', reason);
  const words = WHOLE.includes(reason) ? '' : shownName(reason === 'NotJson' ? detail.replace(LINE, '') : detail, 400);
  if (words === '') return sentence;
  return ended(at ? `${sentence} At ${shownName(at, 400)}: ${words}` : `${sentence.replace(/\.$/, ':')} ${words}`);
}

/** What is wrong with a format. */
export function toldOfFormat({ reason, at, detail }) {
  if (!detail) return sentenceOn('format', reason);
  const words = shownName(detail, 400);
  if (reason === 'NotJson') return ended(`The format isn’t valid JSON at ${words}`);
  return ended(at ? `At ${shownName(at, 400)}: ${words}` : words[0].toUpperCase() + words.slice(1));
}

/** What is wrong with bytes, and what was expected where they stop being a value. */
export function toldOfBytes(reason, stop) {
  const sentence = sentenceOn('bytes', reason);
  const isTold = stop === undefined || EXPECTED_BY_SENTENCE.includes(reason);
  return isTold ? sentence : `${sentence} Expected there: ${expectedAt(stop)}.`;
}

/** What was expected, and its name. The whole value has none. */
export function expectedAt({ want, name }) {
  return name === '.' ? shownName(want) : `${shownName(want)}, at ${shownName(name, 400)}`;
}

function ended(sentence) {
  return /[.?!]$/.test(sentence) ? sentence : `${sentence}.`;
}
