// A value of a format to begin with: zeros, empty texts and lists, the first variant of each enum.

/** The JSON of a blank value. It has `null` for a container inside itself, which may not be a value. */
export function blankOf(containers, format) {
  return new Blank(containers).value(format);
}

class Blank {
  #open = new Set();

  constructor(containers) {
    this.containers = containers;
  }

  value(format) {
    if (typeof format === 'string') return this.leaf(format);
    const [[kind, inner]] = Object.entries(format);
    switch (kind) {
      case 'TYPENAME':
        return this.named(inner);
      case 'OPTION':
        return null;
      case 'TUPLE':
        return inner.map((part) => this.value(part));
      case 'TUPLEARRAY':
        return this.array(inner.CONTENT, inner.SIZE);
      default:
        return [];
    }
  }

  leaf(format) {
    if (format === 'UNIT') return null;
    if (format === 'BOOL') return false;
    return format === 'STR' || format === 'BYTES' ? '' : 0;
  }

  array(content, size) {
    if (size > 4096) return [];
    return content === 'U8' ? '00'.repeat(size) : Array.from({ length: size }, () => this.value(content));
  }

  named(name) {
    if (this.#open.has(name)) return null;
    this.#open.add(name);
    const blank = this.container(this.containers.get(name));
    this.#open.delete(name);
    return blank;
  }

  container(container) {
    if (container === 'UNITSTRUCT') return null;
    const [[kind, inner]] = Object.entries(container);
    switch (kind) {
      case 'NEWTYPESTRUCT':
        return this.value(inner);
      case 'TUPLESTRUCT':
        return inner.map((part) => this.value(part));
      case 'STRUCT':
        return this.fields(inner);
      default:
        return this.variant(inner);
    }
  }

  fields(fields) {
    const named = fields.map((field) => Object.entries(field)[0]);
    return Object.fromEntries(named.map(([name, format]) => [name, this.value(format)]));
  }

  variant(variants) {
    const numbers = Object.keys(variants).map(Number);
    if (numbers.length === 0) return null;
    const [[name, payload]] = Object.entries(variants[Math.min(...numbers)]);
    return payload === 'UNIT' ? name : Object.fromEntries([[name, this.payload(payload)]]);
  }

  payload(payload) {
    const [[kind, inner]] = Object.entries(payload);
    if (kind === 'NEWTYPE') return this.value(inner);
    return kind === 'TUPLE' ? inner.map((part) => this.value(part)) : this.fields(inner);
  }
}
