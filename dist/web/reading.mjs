// Values in JavaScript's own types, from normal JSON. This is a convenience and not proved.
import { bytesOfDigits } from './hex.mjs';
import { wideOfBytes } from './move_types.mjs';

const WIDE = new Set(['U64', 'U128', 'I64', 'I128']);

/** The value of this shape that normal JSON represents; with `plainOptions`, options are their values where that is clear. */
export function valueOf(shapes, shape, json, plainOptions = false) {
  return readerOf(shapes, shape, plainOptions)(JSON.parse(json));
}

/** The function that makes a value from parsed JSON of this shape. It is made once, and calls nothing of the caller's. */
function readerOf(shapes, shape, plainOptions) {
  const own = plainOptions ? 'readPlain' : 'read';
  shape[own] ??= newReader(shapes, shape, plainOptions);
  return shape[own];
}

function newReader(shapes, shape, plainOptions) {
  const partReader = (part) => readerOf(shapes, part, plainOptions);
  switch (shape.kind) {
    case 'TYPENAME':
      return containerReader(shapes, shape.name, plainOptions);
    case 'OPTION':
      return optionReader(partReader(shape.members.get('some')), plainOptions && shapes.isPlainOption(shape));
    case 'SEQ':
      return listReader(partReader(shape.item));
    case 'TUPLE':
      return tupleReader(shape.parts.map(partReader));
    case 'MAP':
      return mapReader(partReader(shape.entry));
    case 'STRUCT':
      return structReader([...shape.members.keys()], [...shape.members.values()].map(partReader));
    case 'ENUM':
      return variantReader(new Map(Array.from(shape.members, ([name, part]) => [name, partReader(part)])));
    default:
      return leafReader(shape);
  }
}

/** The reader of a container's content is made with its first value, since containers may hold one another. */
function containerReader(shapes, name, plainOptions) {
  let read;
  return (json) => {
    read ??= readerOf(shapes, shapes.container(name), plainOptions);
    return read(json);
  };
}

function optionReader(read, isPlain) {
  if (isPlain) return (json) => (json === null ? null : read(json.some));
  return (json) => (json === null ? null : { some: read(json.some) });
}

function listReader(read) {
  return read === unchanged ? unchanged : (json) => json.map((item) => read(item));
}

function tupleReader(reads) {
  return (json) => reads.map((read, i) => read(json[i]));
}

function mapReader(readEntry) {
  return (json) => new Map(json.map((entry) => readEntry(entry)));
}

/** An object with the fields in the order of the registry. Copying one that has them all is faster than adding each. */
function structReader(names, reads) {
  const empty = names.reduce((made, name) => put(made, name, undefined), {});
  return (json) => {
    const made = { ...empty };
    for (let i = 0; i < names.length; i++) {
      const [name, read] = [names[i], reads[i]];
      made[name] = read === unchanged ? json[name] : read(json[name]);
    }
    return made;
  };
}

function variantReader(reads) {
  return (json) => {
    if (typeof json === 'string') return json;
    const [name] = Object.keys(json);
    return put({}, name, reads.get(name)(json[name]));
  };
}

function leafReader({ kind, name }) {
  switch (kind) {
    case 'INTEGER':
      return WIDE.has(name) ? BigInt : unchanged;
    case 'BYTES':
      return bytesOfDigits;
    case 'ADDRESS':
      return (json) => `0x${json}`;
    case 'U256':
    case 'I256':
      return (json) => wideOfBytes(bytesOfDigits(json), kind === 'I256');
    default:
      return unchanged;
  }
}

function unchanged(json) {
  return json;
}

/** Adds a member. (An assignment to `__proto__` would make none.) */
function put(made, name, value) {
  if (name === '__proto__') Object.defineProperty(made, name, { value, writable: true, enumerable: true, configurable: true });
  else made[name] = value;
  return made;
}
