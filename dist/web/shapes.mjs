// The formats of a registry as values are read and written: parsed once, with fields and variants found by their names.

import { MoveTypes } from './move_types.mjs';

// Values of these kinds are neither `null` nor objects with members.
const PLAIN = new Set(['BOOL', 'STR', 'BYTES', 'INTEGER', 'SEQ', 'TUPLE', 'MAP', 'ADDRESS', 'U256', 'I256']);
const INTEGERS = new Set(['U8', 'U16', 'U32', 'U64', 'U128', 'I8', 'I16', 'I32', 'I64', 'I128']);

/** The containers of a registry's JSON text by their names. The text has passed the proved check. */
export function containersOf(registryText) {
  return new Map(Object.entries(JSON.parse(registryText)));
}

/**
 * Makes shapes of formats. A shape has its `kind`, which is that of the format, except that all integers are an `INTEGER`, lists and
 * arrays of `U8` are `BYTES`, any other `TUPLEARRAY` is a `SEQ`, tuple structs are a `TUPLE` and newtypes what they hold, or the
 * `ADDRESS`, `U256` or `I256` of Move; the `name` that messages use; and its `item`, `parts`, `entry` or `members`.
 */
export class Shapes {
  #containers;
  #moveTypes;
  #known = new Map();

  constructor(containers, moveTypes = new MoveTypes()) {
    this.#containers = containers;
    this.#moveTypes = moveTypes;
  }

  get names() {
    return [...this.#containers.keys()];
  }

  isMoveType(name) {
    return this.#moveTypes.of(name, this.#containers.get(name)) !== undefined;
  }

  /** The shape of a format that has passed the proved check. */
  of(format) {
    if (typeof format === 'string') return { kind: INTEGERS.has(format) ? 'INTEGER' : format, name: format };
    const [[kind, inner]] = Object.entries(format);
    switch (kind) {
      case 'TYPENAME':
        return { kind, name: inner };
      case 'OPTION':
        return { kind, name: kind, members: new Map([['some', this.of(inner)]]) };
      case 'SEQ':
        return this.#list(kind, inner);
      case 'TUPLEARRAY':
        return this.#list(kind, inner.CONTENT);
      case 'TUPLE':
        return this.#tuple(kind, inner);
      default:
        return { kind, name: kind, entry: this.#tuple('an entry of MAP', [inner.KEY, inner.VALUE]) };
    }
  }

  /** What a container holds. It is made when it is first needed, since containers may hold one another. */
  container(name) {
    if (!this.#known.has(name)) this.#known.set(name, this.#container(name, this.#containers.get(name)));
    return this.#known.get(name);
  }

  /**
   * Whether an option may be `null` or its value: the value is never `null`, and never an object that could be `{ some: value }`
   * too.
   */
  isPlainOption(option) {
    option.isPlain ??= this.#isPlain(option.members.get('some'));
    return option.isPlain;
  }

  #isPlain(shape) {
    const inner = this.#resolved(shape);
    switch (inner?.kind) {
      case 'STRUCT':
        return inner.members.size !== 1 || !inner.members.has('some');
      case 'ENUM':
        return !inner.members.has('some');
      default:
        return PLAIN.has(inner?.kind);
    }
  }

  /** Whether the values of a shape are objects. */
  hasMembers(shape) {
    return ['STRUCT', 'ENUM'].includes(this.#resolved(shape)?.kind);
  }

  /** What containers hold in the end, or `undefined` for newtypes that hold themselves. */
  #resolved(shape) {
    const seen = new Set();
    while (shape.kind === 'TYPENAME') {
      if (seen.has(shape.name)) return undefined;
      seen.add(shape.name);
      shape = this.container(shape.name);
    }
    return shape;
  }

  #container(name, container) {
    if (container === 'UNITSTRUCT') return this.of('UNIT');
    const moveType = this.#moveTypes.of(name, container);
    if (moveType !== undefined) return { kind: moveType.toUpperCase(), name };
    const [[kind, inner]] = Object.entries(container);
    if (kind !== 'ENUM') return this.#content(name, kind, inner);
    const variants = Object.values(inner).map((variant) => Object.entries(variant)[0]);
    return { kind, name, members: new Map(variants.map(([own, payload]) => [own, this.#payload(`${name}::${own}`, payload)])) };
  }

  #payload(name, payload) {
    return payload === 'UNIT' ? this.of('UNIT') : this.#content(name, ...Object.entries(payload)[0]);
  }

  #content(name, kind, inner) {
    switch (kind) {
      case 'NEWTYPESTRUCT':
      case 'NEWTYPE':
        return this.of(inner);
      case 'TUPLESTRUCT':
      case 'TUPLE':
        return this.#tuple(name, inner);
      default:
        return { kind: 'STRUCT', name, members: this.#fields(inner) };
    }
  }

  #list(name, format) {
    return format === 'U8' ? { kind: 'BYTES', name } : { kind: 'SEQ', name, item: this.of(format) };
  }

  #tuple(name, formats) {
    return { kind: 'TUPLE', name, parts: formats.map((format) => this.of(format)) };
  }

  #fields(fields) {
    const named = fields.map((field) => Object.entries(field)[0]);
    return new Map(named.map(([name, format]) => [name, this.of(format)]));
  }
}
