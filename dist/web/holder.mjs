// A registry that is open.
import { Opened } from './calls.mjs';
import { longestStringOf, nodesFor } from './limits.mjs';
import { containersOf, Shapes } from './shapes.mjs';
import { bytesOf, stringOfUtf8, wellFormed } from './texts.mjs';

const KEPT_FORMATS = 100;

/** Frees registries that nothing refers to any more. */
const collected = new FinalizationRegistry(({ calls, opened }) => calls.close(opened));

/** What a registry has open and what was parsed of it, shared with those that differ from it in their limits. */
export class Holder {
  opened;
  #calls;
  #moveTypes;
  #isClosed = false;
  #running = 0;
  #shapes;
  #longestName;
  // (apart, since a container may be called `null` or `7`)
  #formats = { ofStrings: new Map(), ofObjects: new Map() };

  constructor(calls, text, moveTypes) {
    this.#calls = calls;
    this.#moveTypes = moveTypes;
    this.opened = new Opened(text);
    collected.register(this, { calls, opened: this.opened }, this);
  }

  /** Makes a call. It may run code of the caller that closes the registry, which is then freed when the call ends. */
  during(call) {
    if (this.#isClosed) throw new Error('the registry is closed');
    this.#running++;
    try {
      return call();
    } finally {
      this.#running--;
      this.#freeIfUnused();
    }
  }

  close() {
    this.#isClosed = true;
    collected.unregister(this);
    this.#freeIfUnused();
  }

  #freeIfUnused() {
    if (this.#isClosed && this.#running === 0) this.#calls.close(this.opened);
  }

  get shapes() {
    this.#shapes ??= new Shapes(containersOf(stringOfUtf8(this.opened.text)), this.#moveTypes);
    return this.#shapes;
  }

  /** Throws, and closes the registry, unless it has the containers that the caller called addresses or integers. */
  checkNames() {
    const missing = this.#moveTypes.given.find((name) => !this.shapes.isMoveType(name));
    if (missing === undefined) return;
    this.close();
    throw new TypeError(`names: the registry has no newtype of 32 bytes called ${missing}`);
  }

  /** How many nodes bytes of this length may have by default. */
  nodesFor(length) {
    this.#longestName ??= longestStringOf(this.opened.text);
    return nodesFor(length, this.#longestName);
  }

  /** The format that a caller names. The number of formats that are kept is limited. This may run the caller's code. */
  format(given) {
    const isString = typeof given === 'string';
    const formats = isString ? this.#formats.ofStrings : this.#formats.ofObjects;
    const word = isString ? given : jsonOfObject(given);
    const known = formats.get(word);
    if (known !== undefined) return known;
    const text = isString ? textOfFormat(word) : word;
    const format = { text, bytes: bytesOf(text), shape: undefined };
    if (formats.size < KEPT_FORMATS) formats.set(word, format);
    return format;
  }

  /** The shape of a format that has passed the proved check. */
  shapeOf(format) {
    format.shape ??= this.shapes.of(JSON.parse(format.text));
    return format.shape;
  }
}

/** The JSON of a format that is an object. Anything else gets words of its own, since its JSON would be one that nobody wrote. */
function jsonOfObject(given) {
  const json = typeof given === 'object' && given !== null && !Array.isArray(given) ? JSON.stringify(given) : undefined;
  if (json !== undefined) return json;
  throw new TypeError(`a format is a container's name, JSON such as '"U8"', or an object such as { SEQ: 'U8' }, and not ${kindOfPassed(given)}`);
}

function kindOfPassed(given) {
  if (given === null || given === undefined) return String(given);
  if (Array.isArray(given)) return 'an array';
  return typeof given === 'object' ? 'an object without JSON' : `a ${typeof given}`;
}

/** As in the program: a text that begins with `{` or `"` is a format's JSON, and any other a container's name. */
function textOfFormat(format) {
  return /^[{"]/.test(format) ? wellFormed(format) : JSON.stringify({ TYPENAME: format });
}
