// What the reader typed or opened, and the page then replaced: a click brings back the last of it.
const MOST_KEPT = 10;

export class Kept {
  #line;
  #states = [];

  /** `line` is shown while there is something to bring back. */
  constructor(line) {
    this.#line = line;
  }

  add(state) {
    this.#states = [...this.#states, state].slice(-MOST_KEPT);
    this.#line.hidden = false;
  }

  takeBack() {
    const state = this.#states.pop();
    this.#line.hidden = this.#states.length === 0;
    return state;
  }
}
