// Limits on values, and what bytes may cost by default.

export const MOST_DEPTH = 500;
export const ALL_NODES = 0xffffffff;
const SPARE_NODES = 65_536;
const LONG_NAME = 64;
const [QUOTE, BACKSLASH] = [0x22, 0x5c];

/** Limits by name, for `withLimits`. */
export const Limits = Object.freeze({
  /** Those of the specification: the whole range, for bytes too. */
  standard: () => ({ depth: MOST_DEPTH, nodes: ALL_NODES }),
});

/**
 * How many nodes bytes may have by default, as `bcs_handle_nodes_for` of the C library computes it: 16 a byte and 65,536. Five
 * bytes can announce two billion; no real value comes near this limit. A decoded value may repeat a name in each node, so a
 * registry with a name of more than 64 bytes gets the number of nodes whose names of 64 bytes would take as much, but at least 2 a byte.
 */
export function nodesFor(length, longestName) {
  const ordinary = Math.min(16 * length + SPARE_NODES, ALL_NODES);
  if (longestName <= LONG_NAME) return ordinary;
  return Math.min(Math.max(Math.floor((ordinary * LONG_NAME) / longestName), 2 * length), ordinary);
}

/** How many bytes the longest string of a JSON document has between its quotes. No name of a registry is longer. */
export function longestStringOf(json) {
  let [longest, start] = [0, -1];
  for (let at = 0; at < json.length; at++) {
    if (start < 0) {
      if (json[at] === QUOTE) start = at + 1;
    } else if (json[at] === BACKSLASH) {
      at++;
    } else if (json[at] === QUOTE) {
      longest = Math.max(longest, at - start);
      start = -1;
    }
  }
  return longest;
}

/** Rejects a limit or an option that isn't one of these: a misspelt one would be left out. */
export function requireKnown(given, names, what) {
  const unknown = Object.keys(given).find((name) => !names.includes(name));
  if (unknown !== undefined) throw new TypeError(`no ${what} is called ${unknown}: ${names.join(', ')}`);
}

/** A limit that a caller passes. The library refuses one above `most`, with a kind of its own. */
export function limitOf(number, name, most) {
  if (isUnsigned(number)) return number;
  throw new RangeError(`${name} is an integer from 0 to ${most}, and not ${String(number)}`);
}

export function isUnsigned(number) {
  return Number.isInteger(number) && number >= 0 && number <= ALL_NODES;
}
