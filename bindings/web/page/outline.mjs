// The pieces of a value's bytes as an outline: a row for each value, with the pieces that are its own and those of its parts.
// The pieces are the proved call's; which row they stand in is found here, by going through the format beside them.
import { shownContainer, signatureOf } from './arguments.mjs';

const MOST_ROWS = 200_000;
// (rows of parts that have no bytes, of which a few bytes can announce millions)
const MOST_EMPTY = 64;

/**
 * Rows in the order of the bytes: `{ level, label, value, what, from, own, to }`, the last three counting pieces. `insides` has the
 * formats of the byte strings that are opened, by their names, and `calls` the functions, by the names of their lists of arguments.
 */
export function outlineOf(containers, format, pieces, insides = new Map(), calls = {}) {
  const outline = new Outline(containers, pieces, insides, calls);
  try {
    outline.value(format, { level: 0, label: '', types: [] });
  } catch (error) {
    // (where the engine's stack ends, which engines tell in words of their own, the outline ends, too)
    if (!(error instanceof OutOfPieces || /call stack|recursion/.test(error.message))) throw error;
  }
  return outline.rows;
}

/** The pieces end before the value does, as those of damaged bytes. */
class OutOfPieces extends Error {}

class Outline {
  constructor(containers, pieces, insides, calls) {
    this.containers = containers;
    this.pieces = pieces;
    this.insides = insides;
    this.calls = calls;
    this.next = 0;
    this.rows = [];
  }

  get piece() {
    if (this.next >= this.pieces.length || this.rows.length >= MOST_ROWS) throw new OutOfPieces();
    return this.pieces[this.next];
  }

  /** A row whose own pieces are the next `count` ones. `parts` goes on with the rows below it. */
  row(at, { value, what, count }, parts = () => {}) {
    const row = { level: at.level, label: at.label, value, what: [...at.types, what].filter(Boolean).join(', ') };
    row.from = this.next;
    this.next += count;
    row.own = this.next;
    this.rows.push(row);
    try {
      parts();
    } finally {
      row.to = this.next;
    }
  }

  value(format, at) {
    if (typeof format === 'string') return this.leaf(format, at);
    const [[kind, inner]] = Object.entries(format);
    switch (kind) {
      case 'TYPENAME':
        return this.container(this.containers.get(inner), { ...at, types: [...at.types, shownContainer(inner)] });
      case 'OPTION':
        return this.option(inner, at);
      case 'SEQ':
        return inner === 'U8' ? this.octets(at, 'SEQ') : this.list(inner, at);
      case 'MAP':
        return this.map(inner, at);
      case 'TUPLE':
        return this.row(at, { what: 'TUPLE', count: 0 }, () => this.tuple(inner, at));
      default:
        return inner.CONTENT === 'U8' && inner.SIZE > 0 ? this.array(at) : this.parts(inner, at);
    }
  }

  leaf(format, at) {
    if (format === 'STR' || format === 'BYTES') return this.octets(at, format);
    if (format === 'UNIT') this.row(at, { value: 'no bytes', what: format, count: 0 });
    else this.row(at, { value: String(this.piece.value), what: format, count: 1 });
  }

  /** A text, a byte string or a list of `U8`: the length, and then the content where there is any. */
  octets(at, what) {
    const [length, content] = [this.piece, this.pieces[this.next + 1]];
    const isWhole = length.value > 0 && content !== undefined;
    const inside = this.insides.get(length.name);
    if (isWhole && inside !== undefined && content.name.startsWith(`${length.name}[bcs]`)) {
      const told = { value: length.value === 1 ? '1 byte' : `${length.value} bytes`, what, count: 1 };
      return this.row(at, told, () => this.value(formatOf(inside), below(at, '[bcs]')));
    }
    const value = isWhole ? contentOf(content) : length.value === 0 ? 'empty' : '';
    this.row(at, { value, what: what === 'SEQ' ? `${length.value} × U8` : what, count: isWhole ? 2 : 1 });
  }

  array(at) {
    const { kind, value } = this.piece;
    this.row(at, { value: contentOf(this.piece), what: kind === 'octets' ? `${value} × U8` : '', count: 1 });
  }

  option(inner, at) {
    const isPresent = this.piece.value;
    this.row(at, { value: isPresent ? 'some' : 'none', what: 'OPTION', count: 1 }, () => {
      if (isPresent) this.value(inner, below(at, 'some'));
    });
  }

  list(inner, at) {
    const { value: count, name } = this.piece;
    const value = count === 1 ? '1 element' : `${count} elements`;
    const what = Object.hasOwn(this.calls, name) ? signatureOf(this.containers, this.calls[name]) : 'SEQ';
    this.row(at, { value, what, count: 1 }, () => this.each(count, at, (part) => this.value(inner, part)));
  }

  parts({ CONTENT, SIZE }, at) {
    const value = SIZE === 1 ? '1 element' : `${SIZE} elements`;
    this.row(at, { value, what: 'TUPLEARRAY', count: 0 }, () => this.each(SIZE, at, (part) => this.value(CONTENT, part)));
  }

  each(count, at, part) {
    let empty = 0;
    for (let i = 0; i < count && empty < MOST_EMPTY; i++) {
      const before = this.next;
      part(below(at, `[${i}]`));
      empty += this.next === before ? 1 : 0;
    }
  }

  map({ KEY, VALUE }, at) {
    const count = this.piece.value;
    const value = count === 1 ? '1 entry' : `${count} entries`;
    this.row(at, { value, what: 'MAP', count: 1 }, () =>
      this.each(count, at, (part) => {
        this.value(KEY, { ...part, label: `key ${part.label.slice(1, -1)}` });
        this.value(VALUE, { ...part, label: `value ${part.label.slice(1, -1)}` });
      }),
    );
  }

  tuple(formats, at) {
    formats.forEach((format, i) => this.value(format, below(at, `[${i}]`)));
  }

  fields(fields, at) {
    for (const field of fields) {
      const [[name, format]] = Object.entries(field);
      this.value(format, below(at, name));
    }
  }

  container(container, at) {
    if (container === 'UNITSTRUCT') return this.row(at, { value: 'no bytes', count: 0 });
    const [[kind, inner]] = Object.entries(container);
    switch (kind) {
      case 'NEWTYPESTRUCT':
        return this.value(inner, at);
      case 'TUPLESTRUCT':
        return this.row(at, { count: 0 }, () => this.tuple(inner, at));
      case 'STRUCT':
        return this.row(at, { count: 0 }, () => this.fields(inner, at));
      default:
        return this.variant(inner, at);
    }
  }

  variant(variants, at) {
    const [[name, payload]] = Object.entries(variants[this.piece.value]);
    this.row(at, { value: name, count: 1 }, () => {
      if (payload !== 'UNIT') this.payload(payload, at);
    });
  }

  payload(payload, at) {
    const [[kind, inner]] = Object.entries(payload);
    if (kind === 'TUPLE') this.tuple(inner, at);
    else if (kind === 'STRUCT') this.fields(inner, at);
    else this.content(inner, at);
  }

  /** What a variant holds: a struct's fields stand right below the variant, and anything else in a row of its own. */
  content(format, at) {
    const container = this.containers.get(format.TYPENAME);
    if (container?.STRUCT) this.fields(container.STRUCT, at);
    else this.value(format, below(at, 'content'));
  }
}

/** A container's name, or a format's JSON. */
function formatOf(text) {
  return /^[{"]/.test(text) ? JSON.parse(text) : { TYPENAME: text };
}

function below(at, label) {
  return { level: at.level + 1, label, types: [] };
}

/** What a text or a byte string holds, cut where it is long. */
function contentOf(piece) {
  if (['address', 'u256', 'i256'].includes(piece.kind)) return String(piece.value);
  if (piece.kind === 'text') return JSON.stringify(piece.value.slice(0, 200));
  return piece.bytes.length <= 32 ? piece.bytes : `${piece.bytes.slice(0, 16)}…${piece.bytes.slice(-8)}`;
}
