// TypeScript declarations of a registry's values: of each container what `decode` gives, and what `encode` takes. Not proved:
// they say what `values.mjs` does, and tests compare the two.
import { Identifiers, memberOf, sorted, stringOf } from './identifiers.mjs';
import { MoveTypes } from './move_types.mjs';
import { Shapes } from './shapes.mjs';

const HEAD = '// Made of a registry by bcs-types. `decode` gives a Name; `encode` takes a NameInput, and so a Name.\n';
const PLAIN_HEAD = HEAD.replace('bcs-types. `decode`', 'bcs-types. `decode` with plainOptions');
const LEAVES = { UNIT: 'null', BOOL: 'boolean', STR: 'string', CHAR: 'never', F32: 'never', F64: 'never' };
const WIDE = new Set(['U64', 'U128', 'I64', 'I128']);

// What the two have apart.
const GIVEN = { narrow: 'number', wide: 'bigint', bytes: 'Uint8Array', address: 'string', map: 'Map', list: '' };
const BYTES = 'Uint8Array | ArrayBuffer | readonly (number | bigint)[]';
const TAKEN = {
  narrow: 'number | bigint',
  wide: 'number | bigint',
  bytes: BYTES,
  address: `string | ${BYTES}`,
  map: 'ReadonlyMap',
  list: 'readonly ',
};

/**
 * The declarations for the containers of a registry, by their names. The registry has passed the proved check. With
 * `plainOptions`, those of what `decode` returns with that option. The names of Move's types are those that it is opened with.
 */
export function declarationsOf(containers, plainOptions = false, moveTypes = new MoveTypes()) {
  const names = sorted(containers.keys());
  const identifiers = new Identifiers();
  const given = identifiers.ofAll(names);
  const taken = new Map(names.map((name) => [name, identifiers.of(`${given.get(name)}Input`)]));
  const shapes = new Shapes(containers, moveTypes);
  const optionOf = plainOptions ? (type) => `null | ${type}` : (type) => `null | { some: ${type} }`;
  const writers = [new Writer(GIVEN, given, shapes, optionOf), new Writer(TAKEN, taken, shapes, (type) => `null | ${type} | { some: ${type} }`)];
  const types = names.map((name) => {
    const isEndless = holdsItself(containers, name);
    const note = noteOf(name, given.get(name), isEndless);
    const declared = writers.map((writer) => {
      const type = isEndless ? ' never' : writer.container(name, containers.get(name));
      return `export type ${writer.names.get(name)} =${type};\n`;
    });
    return note + declared.join('');
  });
  return [plainOptions ? PLAIN_HEAD : HEAD, ...types, mapOf(names, given, taken, plainOptions)].join('\n');
}

/** Whether newtypes hold one another in a circle. They have no values, and an alias in a circle is no type. */
function holdsItself(containers, name) {
  const seen = new Set();
  for (let at = name; at !== undefined; at = containers.get(at).NEWTYPESTRUCT?.TYPENAME) {
    if (seen.has(at)) return true;
    seen.add(at);
  }
  return false;
}

function noteOf(name, identifier, isEndless) {
  const words = [];
  if (name !== identifier) words.push(`The container ${stringOf(name)}.`);
  if (isEndless) words.push('It has no values, since it holds itself.');
  return words.length === 0 ? '' : `/** ${words.join(' ')} */\n`;
}

function mapOf(names, given, taken, plainOptions) {
  const decoded = (name) => (plainOptions ? `decode: unknown; plain: ${given.get(name)}` : `decode: ${given.get(name)}`);
  const members = names.map((name) => `  ${memberOf(name)}: { encode: ${taken.get(name)}; ${decoded(name)} };\n`);
  return `/** What \`encode\` takes and \`decode\` gives by the names of containers: \`bcs.registry<Types>(text)\`. */
export type Types = {\n${members.join('')}};\n`;
}

/** Writes the types of formats and containers as one of the two has them. */
class Writer {
  constructor(words, names, shapes, plainOptionOf) {
    this.words = words;
    this.names = names;
    this.shapes = shapes;
    this.plainOptionOf = plainOptionOf;
  }

  container(name, container) {
    if (container === 'UNITSTRUCT') return ' null';
    if (this.shapes.isMoveType(name)) return ` ${this.shapes.container(name).kind === 'ADDRESS' ? this.words.address : this.words.wide}`;
    const [[kind, inner]] = Object.entries(container);
    if (kind === 'ENUM') return this.variants(Object.values(inner));
    if (kind === 'STRUCT' && inner.length > 0) return ` {\n${this.members(inner).map((member) => `  ${member};\n`).join('')}}`;
    return ` ${this.content(kind, inner)}`;
  }

  variants(variants) {
    const types = variants.map((variant) => this.variant(...Object.entries(variant)[0]));
    // (behind a first `|` a type that is alone would lose its name in what editors show)
    return types.length > 1 ? types.map((type) => `\n  | ${type}`).join('') : ` ${types[0] ?? 'never'}`;
  }

  variant(name, payload) {
    if (payload === 'UNIT') return stringOf(name);
    return `{ ${memberOf(name)}: ${this.content(...Object.entries(payload)[0])} }`;
  }

  /** What a struct holds, or what a variant carries. */
  content(kind, inner) {
    switch (kind) {
      case 'NEWTYPESTRUCT':
      case 'NEWTYPE':
        return this.format(inner);
      case 'TUPLESTRUCT':
      case 'TUPLE':
        return this.row(inner);
      default:
        // (the type `{}` would have all values but null)
        return inner.length === 0 ? '{ [name: string]: never }' : `{ ${this.members(inner).join('; ')} }`;
    }
  }

  members(fields) {
    return fields.map((field) => {
      const [[name, format]] = Object.entries(field);
      return `${memberOf(name)}: ${this.format(format)}`;
    });
  }

  format(format) {
    if (typeof format === 'string') return this.leaf(format);
    const [[kind, inner]] = Object.entries(format);
    switch (kind) {
      case 'TYPENAME':
        return this.names.get(inner);
      case 'OPTION':
        return this.option(format, this.format(inner));
      case 'SEQ':
        return this.list(inner);
      case 'TUPLEARRAY':
        return this.list(inner.CONTENT);
      case 'TUPLE':
        return this.row(inner);
      default:
        return `${this.words.map}<${this.format(inner.KEY)}, ${this.format(inner.VALUE)}>`;
    }
  }

  option(format, type) {
    return this.shapes.isPlainOption(this.shapes.of(format)) ? this.plainOptionOf(type) : `null | { some: ${type} }`;
  }

  leaf(word) {
    if (word === 'BYTES') return this.words.bytes;
    return LEAVES[word] ?? (WIDE.has(word) ? this.words.wide : this.words.narrow);
  }

  list(format) {
    if (format === 'U8') return this.words.bytes;
    const item = this.format(format);
    return `${this.words.list}${/\||^readonly /.test(item) ? `(${item})` : item}[]`;
  }

  row(formats) {
    return `${this.words.list}[${formats.map((format) => this.format(format)).join(', ')}]`;
  }
}
