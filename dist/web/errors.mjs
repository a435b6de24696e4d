/**
 * A refusal. `kind` is what is refused, `reason` the fault's name, `place` the byte offset where bytes stop being a value, `at` a
 * JSON Pointer, a field path or a Move type, and `detail` what is wrong there. `at` is empty for a whole document, and `.` for all
 * bytes of a value. `message` is the line that joins them.
 */
export class BcsError extends Error {
  constructor(kind, { reason, place, at, detail, cause } = {}) {
    super(lineOf(reason, place, at, detail), cause === undefined ? undefined : { cause });
    this.name = 'BcsError';
    this.kind = kind;
    this.reason = reason;
    this.place = place;
    this.at = at;
    this.detail = detail;
  }
}

/** The same first words as everywhere: `refused: BadNumber at /amount: expected ..`, and for bytes `refused: BadBool at byte 5, .a: ..`. */
function lineOf(reason, place, at, detail) {
  const where = [place === undefined ? '' : `byte ${place}`, at ?? ''].filter((part) => part !== '').join(', ');
  const fault = where === '' ? reason : `${reason} at ${where}`;
  return ['refused', fault, detail].filter((part) => part !== undefined && part !== '').join(': ');
}
