// Which pieces are lit: pointing at digits lights their row, and pointing at a row lights its digits.

/**
 * Each view gets a call `light([from, own, to], owner)`: the pieces up to `own` are those of the row itself, and up to `to` those
 * of its parts. `owner` is the view that was pointed at. If nothing is lit, the numbers are -1.
 */
export class Lights {
  #views = [];

  add(view) {
    this.#views.push(view);
  }

  light(range, owner) {
    for (const view of this.#views) view.light(range, owner);
  }

  lightPiece(piece, owner) {
    this.light([piece, piece + 1, piece + 1], owner);
  }

  dark() {
    this.light([-1, -1, -1], undefined);
  }
}

/** Moves what is in a box that scrolls into sight, and nothing else of the page. */
export function bringIntoSight(box, element) {
  const [outer, inner] = [box.getBoundingClientRect(), element.getBoundingClientRect()];
  if (inner.top < outer.top + 8) box.scrollTop -= outer.top - inner.top + 32;
  else if (inner.bottom > outer.bottom - 8) box.scrollTop += inner.bottom - outer.bottom + 32;
}
