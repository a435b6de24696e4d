// Values in JavaScript's own types, as JSON. This is a convenience and not proved: the bytes come from the proved call over the
// JSON, which rejects a document that is not a value's.
import { BcsError } from './errors.mjs';
import { JsonOutput } from './json_output.mjs';
import { bytesOfWide, digitsOfAddress } from './move_types.mjs';
import { copyOfBytes, copyOfIntegers, isLength, isMap } from './octets.mjs';
import { isWellFormed } from './texts.mjs';

// The limits of docs/ENCODING.md: arrays and objects in one another, and open containers.
const MOST_NESTED = 100;
const MOST_OPEN = 500;
// An array may have a length of billions and take no memory, and a value may hold another one many times.
const MOST_COUNTED = 1_000_000;
// (about the longest string of V8, so that what is encoded can be decoded)
const MOST_JSON = 1 << 29;
// Nodes of a value by default, and after how many of them the rest are counted before more is written.
const MOST_NODES_OF_VALUE = 1 << 24;
const UNCOUNTED = 100_000;
// Counting ends after so many parts, since a larger value may as well be written.
const MOST_LOOKED_AT = 20_000;
const MOST_SHOWN = 80;
const BITS_SHOWN = 512;
// JSON has such a string as it is.
const PLAIN_TEXT = /^[ !#-[\]-~]{0,200}$/;
const OCTET = { kind: 'INTEGER', name: 'U8' };
const TAKES = {
  INTEGER: 'an integer',
  U256: 'an integer',
  I256: 'an integer',
  UNIT: 'null',
  BOOL: 'a boolean',
  STR: 'a string',
  BYTES: 'bytes, or hex(…) for digits',
  ADDRESS: '0x and 1 to 64 hexadecimal digits, or 32 bytes',
  OPTION: 'null or { some: value }',
  PLAIN_OPTION: 'null, a value or { some: value }',
  TUPLE: 'an array',
  MAP: 'a Map or an array of pairs',
  STRUCT: 'an object',
  ENUM: "a variant's name or an object with one member",
};

/**
 * The JSON of a value of this shape with at most `nodes` nodes, as a string or in UTF-8. Without a number it may have 16,777,216,
 * not counting the bytes of lists of `U8`. Rejects a value of a wrong type; the proved call finds all other faults.
 */
export function jsonOfValue(shapes, shape, value, nodes) {
  return new Writer(shapes, nodes).whole(shape, value);
}

/**
 * Counts the parts of a value that hold no others, each of which is a node at least, but for the items of an array, which may be
 * bytes. A part that is shared is looked at once.
 */
class Leaves {
  #left = MOST_LOOKED_AT;
  #known = new Map();

  /** A number that isn't above theirs. Reads no property that has a getter, so none of the caller's code runs. */
  count(value, levels = MOST_NESTED) {
    if (typeof value !== 'object' || value === null || levels === 0) return 1;
    const known = this.#known.get(value);
    if (known !== undefined) return known;
    // (it may hold itself, and is rejected for that later)
    this.#known.set(value, 1);
    let [count, items] = [0, 0];
    for (const part of partsOf(value)) {
      if (this.#left-- <= 0) break;
      if (Array.isArray(value) && typeof part !== 'object') items = 1;
      else count += this.count(part, levels - 1);
    }
    count = Math.max(1, count + items);
    this.#known.set(value, count);
    return count;
  }
}

function* partsOf(value) {
  if (isMap(value)) {
    for (const entry of entriesOf(value)) yield* entry;
  } else if (Array.isArray(value)) {
    for (let i = 0; ; i++) {
      const held = Object.getOwnPropertyDescriptor(value, i);
      if (held === undefined) return;
      yield held.value;
    }
  } else if (hasMembers(value)) {
    for (const name of Object.keys(value)) yield Object.getOwnPropertyDescriptor(value, name)?.value;
  }
}

/**
 * Goes through a shape and a value together. It may run the caller's code (getters, proxies), but only before the proved call,
 * and it reads each part once. Below an unknown name and beyond the deepest container the call rejects the JSON whatever it has
 * there, so the value is not read there.
 */
class Writer {
  #shapes;
  #nodes;
  #countsOctets;
  #uncounted;
  #whole;
  #out = new JsonOutput();
  #path = [];
  #open = 0;

  constructor(shapes, nodes) {
    this.#shapes = shapes;
    this.#nodes = nodes ?? MOST_NODES_OF_VALUE;
    this.#countsOctets = nodes !== undefined;
    this.#uncounted = this.#nodes - UNCOUNTED;
  }

  whole(shape, value) {
    this.#whole = value;
    this.#value(shape, value);
    return this.#out.whole();
  }

  #value(shape, value) {
    this.#count();
    switch (shape.kind) {
      case 'TYPENAME':
        return this.#held(shape, value);
      case 'OPTION':
        return value === null ? this.#out.put('null') : this.#option(shape, value);
      case 'SEQ':
        return this.#list(shape, value);
      case 'TUPLE':
        return this.#tuple(shape, value);
      case 'MAP':
        return this.#array(shape, isMap(value) ? entriesOf(value) : value, (entry) => this.#tuple(shape.entry, entry));
      case 'STRUCT':
        return this.#members(shape, value);
      case 'ENUM':
        return typeof value === 'string' ? this.#text(shape, value) : this.#members(shape, value);
      default:
        return this.#leaf(shape, value);
    }
  }

  #leaf(shape, value) {
    switch (shape.kind) {
      case 'UNIT':
        return this.#out.put(value === null ? 'null' : this.#reject(shape, value));
      case 'BOOL':
        return this.#out.put(typeof value === 'boolean' ? String(value) : this.#reject(shape, value));
      case 'STR':
        return this.#text(shape, value);
      case 'INTEGER':
        return this.#integer(shape, value);
      case 'U256':
      case 'I256':
        return this.#wide(shape, value);
      case 'BYTES':
        return this.#bytes(shape, value);
      case 'ADDRESS':
        return typeof value === 'string' ? this.#address(shape, value) : this.#bytes(shape, value);
      default:
        // (the proved call rejects F32, F64 and CHAR, whatever the JSON has there)
        return this.#out.put('null');
    }
  }

  /** Writes what a container holds. */
  #held(shape, value) {
    if (this.#open === MOST_OPEN) return this.#out.put('null');
    this.#open++;
    this.#value(this.#containerOf(shape), value);
    return this.#open--;
  }

  #containerOf(shape) {
    shape.held ??= this.#shapes.container(shape.name);
    return shape.held;
  }

  /** `{ some: value }`, or the value alone where it can't be mistaken for that. The names of members are read once. */
  #option(shape, value) {
    if (!this.#shapes.isPlainOption(shape) || value === undefined) return this.#members(shape, value);
    const inner = shape.members.get('some');
    if (!hasMembers(value)) return this.#some(() => this.#value(inner, value));
    const names = Object.keys(value);
    const isExact = (names.length === 1 && names[0] === 'some') || !this.#shapes.hasMembers(inner);
    return isExact ? this.#members(shape, value, names) : this.#some(() => this.#object(inner, value, names));
  }

  #some(write) {
    this.#nest();
    this.#out.put('{"some":');
    this.#path.push('some');
    write();
    this.#path.pop();
    this.#out.put('}');
  }

  /** A struct or a variant, perhaps within containers, whose members have these names. */
  #object(shape, value, names) {
    if (shape.kind !== 'TYPENAME') return this.#members(shape, value, names);
    if (this.#open === MOST_OPEN) return this.#out.put('null');
    this.#open++;
    this.#object(this.#containerOf(shape), value, names);
    return this.#open--;
  }

  #list(shape, value) {
    const integers = shape.item.kind === 'INTEGER' ? this.#copied(copyOfIntegers, shape, value) : undefined;
    if (integers !== undefined) {
      this.#count(integers.length);
      return this.#out.put(`[${integers.join()}]`);
    }
    return this.#array(shape, value, (item) => this.#value(shape.item, item));
  }

  #tuple(shape, value) {
    this.#array(shape, value, (item, i) => this.#value(shape.parts[i], item));
  }

  /** An array, whose items `write` writes. Items beyond those of a tuple are only counted: the proved call reports their number. */
  #array(shape, value, write) {
    if (!Array.isArray(value)) this.#reject(shape, value);
    this.#nest();
    const length = this.#lengthOf(shape, value);
    const count = Math.min(length, shape.parts?.length ?? length);
    if (length - count > MOST_COUNTED) this.#reject(shape, value, 'one with far too many items');
    const depth = this.#path.push(0) - 1;
    for (let i = 0; i < count; i++) {
      this.#path[depth] = i;
      const item = value[i];
      // (no format takes `undefined`, and the proved call rejects those whose values aren't looked at, such as F64)
      if (item === undefined && i >= MOST_COUNTED) this.#reject(shape, value, 'one with far too many items');
      this.#out.put(i === 0 ? '[' : ',');
      write(item, i);
    }
    this.#path.pop();
    const surplus = new Array(length - count).fill('null').join();
    this.#out.put(count === 0 ? `[${surplus}]` : `${surplus && ','}${surplus}]`);
  }

  /** The length of an array, which is read once. A proxy may have any other, for which nothing would be written. */
  #lengthOf(shape, array) {
    const { length } = array;
    return isLength(length) ? length : this.#reject(shape, array, 'an array without a valid length');
  }

  #members(shape, value, known) {
    if (!hasMembers(value)) this.#reject(shape, value);
    this.#nest();
    const names = known ?? Object.keys(value);
    if (shape.kind === 'STRUCT' && shape.members.size + names.length === 0 && !isEmpty(value)) {
      this.#reject(shape, value, 'a class instance or one with hidden members');
    }
    this.#out.put('{');
    for (let i = 0; i < names.length; i++) this.#member(shape, value, names[i], i === 0 ? '' : ',');
    this.#out.put('}');
  }

  #member(shape, value, name, comma) {
    const part = shape.members.get(name);
    if (part === undefined) {
      const text = stringText(name) ?? this.#reject(shape, value, 'one with a lone surrogate in a name');
      return this.#out.put(`${comma}${text}:null`);
    }
    this.#out.put(comma + headOf(shape, name));
    const held = value[name];
    this.#path.push(name);
    this.#value(part, held);
    return this.#path.pop();
  }

  /** The path has a step for each open array or object. A value within itself ends here, too. */
  #nest() {
    if (this.#path.length < MOST_NESTED) return;
    throw this.#error('TooNested', `arrays and objects are nested more than ${MOST_NESTED} levels deep`);
  }

  /** Values that hold others many times end here: they take little memory, and their JSON much. */
  #count(nodes = 1) {
    this.#nodes -= nodes;
    if (this.#nodes < 0) throw this.#error('TooManyNodes', 'the value has more nodes than the limits allow');
    if (this.#nodes < this.#uncounted) this.#countLeaves();
    if (this.#out.length > MOST_JSON) throw this.#error('TooLong', 'the JSON of the value is above 512 MiB');
  }

  /** Counts ahead, once, so that nothing more is written of a value that has too many. */
  #countLeaves() {
    const most = this.#uncounted + UNCOUNTED;
    this.#uncounted = 0;
    if (new Leaves().count(this.#whole) > most) this.#count(most + 1);
  }

  #text(shape, value) {
    this.#out.put((typeof value === 'string' ? stringText(value) : undefined) ?? this.#reject(shape, value));
  }

  #integer(shape, value) {
    const number = this.#exact(shape, value);
    this.#out.put(typeof number === 'number' ? String(number) : `"${number}"`);
  }

  #wide(shape, value) {
    const number = BigInt(this.#exact(shape, value));
    this.#out.putHex(bytesOfWide(number, shape.kind === 'I256') ?? this.#lacksRoom(shape, number));
  }

  /** An integer as it is. A long `bigint` would take long to print, and no format has it. */
  #exact(shape, value) {
    if (typeof value === 'number' ? !Number.isSafeInteger(value) : typeof value !== 'bigint') this.#reject(shape, value);
    if (typeof value === 'bigint' && isLong(value)) this.#lacksRoom(shape, value);
    return value;
  }

  #address(shape, value) {
    const digits = digitsOfAddress(value);
    if (digits !== undefined) return this.#out.put(`"${digits}"`);
    return this.#reject(shape, value, value.length <= MOST_SHOWN ? JSON.stringify(value) : 'a longer string');
  }

  /** Bytes, or a list of integers from 0 to 255. A string is neither, so that bytes never depend on what it looks like. */
  #bytes(shape, value) {
    const bytes = this.#copied(copyOfBytes, shape, value) ?? this.#octets(shape, value);
    if (this.#countsOctets && shape.name !== 'BYTES') this.#count(bytes.length);
    this.#out.putHex(bytes);
  }

  #octets(shape, value) {
    const integers = this.#copied(copyOfIntegers, shape, value) ?? (Array.isArray(value) ? value : this.#reject(shape, value));
    const [octets, length] = [[], this.#lengthOf(shape, integers)];
    const depth = this.#path.push(0) - 1;
    for (let i = 0; i < length; i++) {
      this.#path[depth] = i;
      const item = this.#exact(OCTET, integers[i]);
      if (item < 0 || item > 255) this.#lacksRoom(OCTET, item);
      if (2 * i > MOST_JSON) this.#reject(shape, value, 'one with far too many items');
      octets.push(Number(item));
    }
    this.#path.pop();
    return Uint8Array.from(octets);
  }

  #copied(copy, shape, value) {
    try {
      return copy(value);
    } catch (error) {
      if (!(error instanceof TypeError)) throw error;
      return this.#reject(shape, value, `a detached ${tagOf(value)}`);
    }
  }

  #reject(shape, value, found = foundIn(value)) {
    const takes = shape.kind === 'OPTION' && this.#shapes.isPlainOption(shape) ? TAKES.PLAIN_OPTION : takenBy(shape);
    throw this.#error('WrongType', `${shape.name} takes ${takes}, not ${found}`);
  }

  #lacksRoom(shape, number) {
    const shown = isLong(BigInt(number)) ? `a number of more than ${BITS_SHOWN} bits` : number;
    throw this.#error('WrongType', `${shape.name} doesn't hold ${shown}`);
  }

  #error(reason, detail) {
    const at = this.#path.map((step) => `/${String(step).replaceAll('~', '~0').replaceAll('/', '~1')}`).join('');
    return new BcsError('value', { reason, at, detail });
  }
}

function takenBy({ kind, item }) {
  if (kind !== 'SEQ') return TAKES[kind];
  return item.kind === 'INTEGER' ? 'an array or a typed array of integers' : 'an array';
}

function foundIn(value) {
  if (typeof value === 'number' && !Number.isSafeInteger(value)) return inexact(value);
  if (typeof value === 'string' && stringText(value) === undefined) return 'a string with a lone surrogate';
  return typeof value === 'object' && value !== null ? tagOf(value) : value === null ? 'null' : typeof value;
}

function inexact(number) {
  return Number.isInteger(number) ? `the number ${number}: above 2 ** 53 - 1 only a bigint is exact` : `the number ${number}`;
}

function isLong(number) {
  return BigInt.asIntN(BITS_SHOWN, number) !== number;
}

/** Whether this is a plain object or an instance of most classes, by what `Object.prototype.toString` says. */
function hasMembers(value) {
  return typeof value === 'object' && Object.prototype.toString.call(value) === '[object Object]';
}

/** The JSON of a member's name, and a colon. It is made once. */
function headOf(shape, name) {
  shape.heads ??= new Map(Array.from(shape.members.keys(), (known) => [known, `${stringText(known)}:`]));
  return shape.heads.get(name);
}

/** What `Object.prototype.toString` says: `Date` for a date. */
function tagOf(object) {
  return Object.prototype.toString.call(object).slice('[object '.length, -1);
}

/** Whether an object is `{}`, perhaps of another realm, and no instance of a class: that has its members elsewhere. */
function isEmpty(object) {
  const prototype = Object.getPrototypeOf(object);
  const isPlain = prototype === null || (Object.getPrototypeOf(prototype) === null && Object.hasOwn(prototype, 'isPrototypeOf'));
  return isPlain && Reflect.ownKeys(object).length === 0;
}

/** The pairs of a map as they are now: reading a value may run code that changes the map. */
function entriesOf(map) {
  return Array.from(Map.prototype.entries.call(map));
}

/** The JSON of a string, or `undefined` where a lone surrogate is in it, which UTF-8 doesn't have. */
function stringText(string) {
  if (PLAIN_TEXT.test(string)) return `"${string}"`;
  return isWellFormed(string) ? JSON.stringify(string) : undefined;
}
