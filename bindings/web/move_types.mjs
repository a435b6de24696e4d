// Types of Move that a registry has as newtypes of 32 bytes: addresses and integers of 256 bits.
import { bytesOfHex, hexOf } from './hex.mjs';

const SIZE = 32;
const IS_ADDRESS = /^0x[0-9a-fA-F]{1,64}$/;
const BITS = 8 * SIZE;
// How `bcs from-move` calls the containers.
const DEFAULT_NAMES = { address: ['address'], u256: ['u256'], i256: ['i256'] };

/** By the names of containers which of the types they are. For a type whose names aren't given, they are the default ones. */
export class MoveTypes {
  /** The names that the caller gave. */
  given = [];
  #types = new Map();

  /** This may run the caller's code. */
  constructor(names = {}) {
    if (typeof names !== 'object' || names === null) throw new TypeError('names is an object of arrays');
    for (const type of Object.keys(names)) {
      if (!Object.hasOwn(DEFAULT_NAMES, type)) throw new TypeError(`names has address, u256 and i256, and not ${type}`);
    }
    for (const [type, defaults] of Object.entries(DEFAULT_NAMES)) {
      const given = names[type];
      for (const name of given === undefined ? defaults : listOf(given, type)) this.#add(name, type, given !== undefined);
    }
  }

  #add(name, type, isGiven) {
    if (this.#types.has(name)) throw new TypeError(`names has the container ${name} twice`);
    this.#types.set(name, type);
    if (isGiven) this.given.push(name);
  }

  /** The type of a container, or `undefined` if its values are those of its format. */
  of(name, container) {
    return isOf32Bytes(container) ? this.#types.get(name) : undefined;
  }
}

function listOf(given, type) {
  const names = Array.isArray(given) ? Array.from(given) : undefined;
  if (names?.every((name) => typeof name === 'string')) return names;
  throw new TypeError(`names.${type} is an array of containers' names`);
}

function isOf32Bytes(container) {
  const array = container?.NEWTYPESTRUCT?.TUPLEARRAY;
  return array?.CONTENT === 'U8' && array.SIZE === SIZE;
}

/** All digits of an address, which is `0x` and 1 to 64 hexadecimal digits. `undefined` for any other string. */
export function digitsOfAddress(string) {
  return IS_ADDRESS.test(string) ? string.slice(2).padStart(2 * SIZE, '0') : undefined;
}

/** The bytes of an integer of 256 bits, the lowest first, or `undefined` if it has more. */
export function bytesOfWide(number, isSigned) {
  if ((isSigned ? BigInt.asIntN(BITS, number) : BigInt.asUintN(BITS, number)) !== number) return undefined;
  return bytesOfHex(BigInt.asUintN(BITS, number).toString(16).padStart(2 * SIZE, '0')).reverse();
}

/** The inverse of that. */
export function wideOfBytes(bytes, isSigned) {
  const number = BigInt(`0x${hexOf(bytes.slice().reverse())}`);
  return isSigned ? BigInt.asIntN(BITS, number) : number;
}
