// Names of types for TypeScript. A container may have any text for its name.

// What a type may not be called: words of TypeScript, types that the declarations use, and the name of the map of all types.
const WORDS =
  'abstract any as asserts async await bigint boolean break case catch class const continue debugger declare default delete do ' +
  'else enum export extends false finally for from function get global if implements import in infer instanceof interface ' +
  'intrinsic is keyof let module namespace never new null number object of out override package private protected public ' +
  'readonly require return satisfies set static string super switch symbol this throw true try type typeof undefined unique ' +
  'unknown using var void while with yield accessor ArrayBuffer Map ReadonlyMap Uint8Array Types';
const PLAIN = /^[A-Za-z][A-Za-z0-9_]*$/;
// What comes before the name of a type of Move.
const MODULE = /0x[0-9a-f]+::[A-Za-z_][A-Za-z0-9_]*::/g;

/** The names in the order of their bytes, so that two spellings of one registry give the same. */
export function sorted(names) {
  return [...names].sort((a, b) => Buffer.compare(Buffer.from(a), Buffer.from(b)));
}

/** Hands out identifiers, each once. */
export class Identifiers {
  #taken = new Set(WORDS.split(' '));
  // the last number that was tried behind each text
  #numbers = new Map();

  /**
   * One for each name, which is the name itself where that is a good one. Those of Move's types leave the modules out, if no other
   * one is like that: `CoinStore_AptosCoin` for `0x1::coin::CoinStore<0x1::aptos_coin::AptosCoin>`.
   */
  ofAll(names) {
    const found = new Map(names.filter((name) => PLAIN.test(name)).map((name) => [name, this.of(name)]));
    const others = names.filter((name) => !PLAIN.test(name)).map((name) => ({ name, short: cleaned(name.replace(MODULE, '')) }));
    const counts = new Map();
    for (const { short } of others) counts.set(short, (counts.get(short) ?? 0) + 1);
    const isFree = ({ short }) => counts.get(short) === 1 && !this.#taken.has(short);
    // (the short ones come first, so that no other name takes one)
    const shortened = new Set(others.filter(isFree));
    for (const { name, short } of shortened) found.set(name, this.of(short));
    for (const other of others) if (!shortened.has(other)) found.set(other.name, this.of(other.name));
    return found;
  }

  /** One like this text, with a number behind it where others have it. */
  of(text) {
    const wanted = PLAIN.test(text) ? text : cleaned(text);
    let number = this.#numbers.get(wanted) ?? 1;
    let found = wanted;
    while (this.#taken.has(found)) found = `${wanted}_${++number}`;
    this.#numbers.set(wanted, number);
    this.#taken.add(found);
    return found;
  }
}

function cleaned(text) {
  const letters = text.replace(/[^A-Za-z0-9]+/g, '_').replace(/^_|_$/g, '');
  return /^[A-Za-z]/.test(letters) ? letters : `T${letters}`;
}

/** The name of a member, in ASCII: as it is where it is a name of JavaScript, and else as a string. */
export function memberOf(name) {
  return /^[A-Za-z_][A-Za-z0-9_]*$/.test(name) ? name : stringOf(name);
}

/** A string of JavaScript in ASCII, in which no comment ends either. */
export function stringOf(text) {
  const escaped = (unit) => `\\u${unit.charCodeAt(0).toString(16).padStart(4, '0')}`;
  return JSON.stringify(text).replace(/[^ -~]/g, escaped).replaceAll('*/', '*\\/');
}
