// JSON as it is written.
import { hexOf, putHex } from './hex.mjs';

// Longer strings become bytes, since appending to a string costs memory for each piece.
const MOST_TEXT = 8192;
const FEW_BYTES = 256;
// What usually follows a long byte string.
const SPARE = 4096;
const utf8 = new TextEncoder();

/** A document that grows at its end: bytes in UTF-8, and behind them a string that isn't among them yet. */
export class JsonOutput {
  #bytes = new Uint8Array();
  #length = 0;
  #text = '';

  /** No more than its bytes. */
  get length() {
    return this.#length + this.#text.length;
  }

  put(text) {
    this.#text += text;
    if (this.#text.length > MOST_TEXT) this.#flush();
  }

  /** A string of two digits for each byte. Those of many bytes are written two by two, so a space puts them at an even place. */
  putHex(bytes) {
    if (bytes.length <= FEW_BYTES) return this.put(`"${hexOf(bytes)}"`);
    this.#flush();
    this.put(this.#length % 2 === 0 ? ' "' : '"');
    this.#flush();
    this.#reserve(2 * bytes.length);
    putHex(bytes, new Uint16Array(this.#bytes.buffer, this.#length, bytes.length));
    this.#length += 2 * bytes.length;
    return this.put('"');
  }

  /** All of it: a string if it is short, and else its bytes. */
  whole() {
    if (this.#length === 0) return this.#text;
    this.#flush();
    return this.#bytes.subarray(0, this.#length);
  }

  #flush() {
    this.#reserve(3 * this.#text.length);
    this.#length += utf8.encodeInto(this.#text, this.#bytes.subarray(this.#length)).written;
    this.#text = '';
  }

  #reserve(count) {
    const needed = this.#length + count;
    if (needed <= this.#bytes.length) return;
    const larger = new Uint8Array(Math.max(needed + SPARE, 2 * this.#bytes.length));
    larger.set(this.#bytes.subarray(0, this.#length));
    this.#bytes = larger;
  }
}
