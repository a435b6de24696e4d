// What the values in tests/rows/values/web.rows are made of.
import { runInNewContext } from 'node:vm';
import { hex } from '../bcs.mjs';

class Instance {
  #hidden = 7;
  a = 1;
  get b() {
    return this.#hidden;
  }
  toJSON() {
    return { a: 2 };
  }
}

class Bare {
  #a = 1;
  get a() {
    return this.#a;
  }
}

class OtherMap extends Map {
  entries() {
    return [['b', 2]].values();
  }
  [Symbol.iterator]() {
    return [['c', 3]].values();
  }
}

class OtherArray extends Array {
  *[Symbol.iterator]() {
    yield 9;
  }
}

const detached = (object) => {
  structuredClone(object.buffer ?? object, { transfer: [object.buffer ?? object] });
  return object;
};

/** An array whose buffer is now shorter. */
function cut(IntegerArray) {
  const buffer = new ArrayBuffer(8, { maxByteLength: 8 });
  const array = new IntegerArray(buffer, 0, 1 + (IntegerArray === Uint8Array));
  buffer.resize(1);
  return array;
}

function shared(...bytes) {
  const array = new Uint8Array(new SharedArrayBuffer(bytes.length));
  array.set(bytes);
  return array;
}

/** A typed array that says that it is another. */
function lying(IntegerArray, ...numbers) {
  const Lying = class extends IntegerArray {
    get length() { return 1; }
    get byteLength() { return 1; }
    [Symbol.iterator]() { return [9].values(); }
    static get [Symbol.species]() { return Float64Array; }
  };
  return new Lying(numbers);
}

const sparse = (length, ...items) => Object.assign(new Array(length), items);
const foreign = (text) => runInNewContext(text);
const child = (members, ...more) => Object.create(Object.assign(Object.create(null), members), ...more);

/** An array with two items that says that it has another number. */
const ofLength = (length) => new Proxy([1, 2], { get: (items, name) => (name === 'length' ? length : items[name]) });

const HELPERS = { Instance, Bare, OtherMap, OtherArray, detached, cut, shared, lying, sparse, foreign, child, ofLength, hex };

/** The value of an expression of the table. */
export function valueOf(text) {
  return new Function(...Object.keys(HELPERS), `return (${text});`)(...Object.values(HELPERS));
}
