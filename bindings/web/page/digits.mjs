// The bytes as rows of hexadecimal digits with their ASCII, each piece in the colour of its kind.
import { bringIntoSight } from './lights.mjs';
import { shownName } from './names.mjs';

const COLOURS = {
  variant: 'choice',
  option: 'choice',
  length: 'length',
  unsigned: 'number',
  signed: 'number',
  truth: 'number',
  text: 'text',
  bytes: 'bytes',
  octets: 'bytes',
  address: 'bytes',
  u256: 'number',
  i256: 'number',
};
const MOST_OF_PIECE = 512;
// What a row holds beside three characters for each byte, and one more where it has ASCII.
const BESIDE = 2;

export class Digits {
  #box;
  #lights;
  #explained;
  #spans = [];
  #active = -1;
  #lit = [-1, -1, -1];
  #columns = 16;
  #hasAscii = true;

  constructor(box, lights) {
    this.#box = box;
    this.#lights = lights;
    lights.add(this);
    box.addEventListener('pointerover', (event) => this.#point(event));
    box.addEventListener('click', (event) => this.#point(event));
    box.addEventListener('pointerleave', () => lights.dark());
    box.addEventListener('keydown', (event) => this.#move(event));
    box.addEventListener('focus', () => this.#activate(Math.max(this.#active, 0)));
    box.addEventListener('blur', () => lights.dark());
    new ResizeObserver(() => this.#fit()).observe(box);
  }

  show(explained) {
    this.#explained = explained;
    this.#active = -1;
    this.#lit = [-1, -1, -1];
    this.#draw();
  }

  light(range, owner) {
    this.#paint(false);
    this.#lit = range;
    this.#paint(true);
    const [from, , to] = range;
    if (from >= 0) this.#active = from;
    const [first] = this.#spansOf(from, to);
    if (first && owner !== this) bringIntoSight(this.#box, first);
  }

  #paint(isLit) {
    const [from, own, to] = this.#lit;
    for (const span of this.#spansOf(from, own)) span.classList.toggle('lit', isLit);
    for (const span of this.#spansOf(own, to)) span.classList.toggle('within', isLit);
  }

  #spansOf(from, to) {
    return this.#spans.slice(Math.max(from, 0), Math.max(to, 0)).flat();
  }

  #point(event) {
    const piece = event.target.dataset?.piece;
    if (piece !== undefined) this.#lights.lightPiece(Number(piece), this);
  }

  #activate(piece) {
    const spans = this.#spans[piece];
    if (spans === undefined) return;
    this.#lights.lightPiece(piece, this);
    this.#box.setAttribute('aria-activedescendant', spans[0].id);
    bringIntoSight(this.#box, spans[0]);
  }

  #move(event) {
    const last = this.#spans.length - 1;
    const to = {
      ArrowRight: Math.min(this.#active + 1, last),
      ArrowDown: Math.min(this.#active + 1, last),
      ArrowLeft: Math.max(this.#active - 1, 0),
      ArrowUp: Math.max(this.#active - 1, 0),
      Home: 0,
      End: last,
    }[event.key];
    if (to === undefined || event.ctrlKey || event.metaKey || event.altKey) return;
    event.preventDefault();
    this.#activate(to);
  }

  /** 32, 16 or 8 bytes in a row: as many as there is room for beside their ASCII, or 16 without it. */
  #fit() {
    const probe = this.#box.querySelector('.offset');
    if (probe === null) return;
    const { paddingLeft, paddingRight } = getComputedStyle(this.#box);
    const digit = probe.getBoundingClientRect().width / probe.textContent.length;
    const width = this.#box.clientWidth - parseFloat(paddingLeft) - parseFloat(paddingRight);
    const room = Math.floor(width / digit) - probe.textContent.length - BESIDE;
    const [columns, hasAscii] = layoutIn(room);
    if (columns === this.#columns && hasAscii === this.#hasAscii) return;
    [this.#columns, this.#hasAscii] = [columns, hasAscii];
    this.#draw();
  }

  #draw() {
    const { pieces, stop, length } = this.#explained;
    this.#spans = pieces.map(() => []);
    const rows = new Rows(this.#box, this.#columns, this.#hasAscii, pieces[0]?.place ?? 0, length);
    let isOther = false;
    pieces.forEach((piece, i) => {
      // (neighbours of one colour have two tones of it)
      isOther = COLOURS[piece.kind] === COLOURS[pieces[i - 1]?.kind] && !isOther;
      this.#drawPiece(rows, piece, i, isOther);
    });
    if (stop) this.#drawRest(rows, this.#explained);
    rows.end();
    this.#paint(true);
  }

  #drawPiece(rows, piece, i, isOther) {
    const isStop = this.#explained.stop && piece.place >= this.#explained.stop.place;
    const classes = ['piece', COLOURS[piece.kind], ...(isOther ? ['other'] : []), ...(isStop ? ['stopped'] : [])];
    const digits = piece.bytes.slice(0, 2 * MOST_OF_PIECE);
    for (const span of rows.put(piece.place, digits, classes)) {
      span.dataset.piece = String(i);
      this.#spans[i].push(span);
    }
    if (piece.size > MOST_OF_PIECE) rows.skipTo(piece.place + piece.size, piece.size - MOST_OF_PIECE);
    this.#nameForReaders(this.#spans[i], piece, i);
  }

  /** The first run of a piece speaks for it, and the others are silent. */
  #nameForReaders([first, ...others], piece, i) {
    first.id = `piece-${i}`;
    first.setAttribute('role', 'option');
    first.setAttribute('aria-label', `byte ${piece.place}: ${shownName(piece.what)}, ${shownName(String(piece.value))}`);
    for (const span of others) span.setAttribute('aria-hidden', 'true');
  }

  #drawRest(rows, { stop, rest, covered, length }) {
    if (rest === '' && covered === stop.place) rows.put(stop.place, '··', ['damage']);
    rows.put(covered, rest.slice(0, 2), [stop.place === covered ? 'damage' : 'behind']);
    rows.put(covered + 1, rest.slice(2), ['behind']);
    const end = covered + rest.length / 2;
    if (end < length) rows.skipTo(end, length - end);
  }
}

/** How many bytes a row has, and whether their ASCII is behind them, if there is room for so many characters. */
function layoutIn(room) {
  const columns = [32, 16].find((count) => 4 * count <= room) ?? 8;
  return columns === 8 && room >= 3 * 16 - 1 ? [16, false] : [columns, 4 * columns <= room];
}

/** The bytes as ASCII, with a dot for each that can't be seen. */
function asciiOf(digits) {
  return digits.replace(/../g, (byte) => {
    const code = parseInt(byte, 16);
    return code > 0x20 && code < 0x7f ? String.fromCharCode(code) : '·';
  });
}

/** Rows that are filled from left to right, and put into the box at their end. */
class Rows {
  #rows = [];

  constructor(box, columns, hasAscii, start, end) {
    this.box = box;
    this.columns = columns;
    this.hasAscii = hasAscii;
    this.start = start - (start % columns);
    this.width = Math.max(4, String(end).length);
  }

  /** Puts digits at a place, a run for each row that they stand in, with one of their ASCII, and gives the runs. */
  put(place, digits, classes) {
    const [runs, asciiRuns] = [[], []];
    for (let at = 0; at < digits.length; ) {
      const column = (place + at / 2 - this.start) % this.columns;
      const part = digits.slice(at, at + 2 * (this.columns - column));
      const run = runOf(part.replace(/..(?=.)/g, '$& '), classes);
      this.#rowAt(place + at / 2, column).append(run, ' ');
      runs.push(run);
      if (this.hasAscii) asciiRuns.push(this.#putAscii(part, classes));
      at += part.length;
    }
    return [...runs, ...asciiRuns];
  }

  #putAscii(digits, [, ...colours]) {
    const run = runOf(/^(··)+$/.test(digits) ? ' ' : asciiOf(digits), ['ascii', ...colours]);
    this.ascii.push(run);
    this.left -= digits.length / 2;
    return run;
  }

  /** Puts the ASCII of a row behind its digits, also where they don't fill it. */
  #endRow() {
    if (this.row === undefined || !this.hasAscii) return;
    const ascii = document.createElement('span');
    ascii.setAttribute('aria-hidden', 'true');
    ascii.append(' '.repeat(this.indent), ...this.ascii);
    this.row.append('   '.repeat(this.left), ascii);
    this.row = undefined;
  }

  skipTo(place, count) {
    this.#endRow();
    const row = document.createElement('div');
    row.className = 'skipped';
    row.setAttribute('role', 'presentation');
    row.textContent = `${count.toLocaleString('en')} bytes more`;
    this.#rows.push(row);
    this.start = place - (place % this.columns);
    this.row = undefined;
  }

  #rowAt(place, column) {
    if (column !== 0 && this.row) return this.row;
    this.#endRow();
    [this.ascii, this.indent, this.left] = [[], column, this.columns - column];
    const row = document.createElement('div');
    row.setAttribute('role', 'presentation');
    const offset = document.createElement('span');
    offset.className = 'offset';
    offset.setAttribute('aria-hidden', 'true');
    offset.textContent = String(place - column).padStart(this.width);
    row.append(offset, '   '.repeat(column));
    this.#rows.push(row);
    this.row = row;
    return row;
  }

  end() {
    this.#endRow();
    this.box.replaceChildren(...this.#rows);
  }
}

function runOf(text, classes) {
  const run = document.createElement('span');
  run.className = classes.join(' ');
  run.textContent = text;
  return run;
}
