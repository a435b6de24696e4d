// A box with a text that may be very long. Long texts are held aside and only a front is shown, since a browser lays out
// a line of millions of characters so slowly that the page would stand still.
import { counted } from './names.mjs';

const MOST_SHOWN = 100_000;
const FRONT_SHOWN = 4_000;

export class Pane {
  #area;
  #note;
  #held;
  #marks;
  #range;

  /** `whenChanged` is called where the reader changes the text, and not where the page does. */
  constructor(area, note, whenChanged) {
    this.#area = area;
    this.#note = note;
    this.whenChanged = whenChanged;
    this.#marks = framed(area);
    area.addEventListener('input', () => this.mark(undefined));
    area.addEventListener('input', () => whenChanged());
    area.addEventListener('scroll', () => this.#follow());
    new ResizeObserver(() => this.#follow()).observe(area);
    area.addEventListener('beforeinput', (event) => this.#takeLongInput(event));
    // (a box that shows a front takes no typing, but a new text in place of the old one)
    area.addEventListener('paste', (event) => this.#takePaste(event));
    area.addEventListener('keydown', (event) => this.#clearByKey(event));
  }

  get area() {
    return this.#area;
  }

  get content() {
    return this.#held ?? this.#area.value;
  }

  set content(text) {
    this.#show(text, text.length, text.length > MOST_SHOWN);
    this.#held = text.length > MOST_SHOWN ? text : undefined;
  }

  /** Shows a front of a text that the page doesn't hold. */
  showFront(front, length) {
    this.#held = undefined;
    this.#show(front, length, true);
  }

  get isCut() {
    return this.#area.readOnly;
  }

  /** Marks a range of the text, or none. */
  mark(range) {
    const text = this.#area.value;
    this.#range = range === undefined || range[0] > text.length ? undefined : range;
    if (this.#range === undefined) return this.#marks.replaceChildren();
    const [from, to] = this.#range;
    const mark = document.createElement('mark');
    // (an empty range, at the end of a text, is marked by a blank)
    mark.textContent = text.slice(from, to) || ' ';
    this.#marks.replaceChildren(text.slice(0, from), mark, text.slice(to), '\n');
    this.#follow();
  }

  /** Takes the cursor to the mark. */
  goToMark() {
    if (this.#range === undefined) return;
    const [from, to] = this.#range;
    this.#area.focus();
    this.#area.setSelectionRange(from, to);
    const mark = this.#marks.querySelector('mark');
    this.#area.scrollTop = Math.max(0, mark.offsetTop - this.#area.clientHeight / 3);
    this.#area.scrollIntoView({ block: 'nearest' });
  }

  /** The marks lie below the text, as wide and as far scrolled. */
  #follow() {
    this.#marks.style.width = `${this.#area.clientWidth}px`;
    this.#marks.style.height = `${this.#area.clientHeight}px`;
    this.#marks.scrollTop = this.#area.scrollTop;
  }

  #show(text, length, isCut) {
    const shown = isCut ? text.slice(0, FRONT_SHOWN) : text;
    this.mark(undefined);
    if (this.#area.value !== shown) this.#area.value = shown;
    this.#area.readOnly = isCut;
    const told = `${counted(length, 'character', 'characters')}, the first ${FRONT_SHOWN} shown; Delete clears`;
    this.#note.textContent = isCut ? told : '';
  }

  #takeLongInput(event) {
    const text = event.data ?? event.dataTransfer?.getData('text/plain') ?? '';
    if (text.length + this.#area.value.length <= MOST_SHOWN) return;
    event.preventDefault();
    this.#take(this.#withSelectionReplaced(text));
  }

  #takePaste(event) {
    if (!this.isCut) return;
    event.preventDefault();
    this.#take(event.clipboardData.getData('text/plain'));
  }

  #clearByKey(event) {
    const isDeleting = event.key === 'Delete' || event.key === 'Backspace';
    if (!this.isCut || !isDeleting) return;
    event.preventDefault();
    this.#take('');
  }

  #withSelectionReplaced(text) {
    const { value, selectionStart, selectionEnd } = this.#area;
    return value.slice(0, selectionStart) + text + value.slice(selectionEnd);
  }

  #take(text) {
    this.content = text;
    this.whenChanged();
  }
}

/** Puts the box into a frame with a layer for marks, which it gives. */
function framed(area) {
  const [frame, marks] = [document.createElement('div'), document.createElement('div')];
  frame.className = 'frame';
  marks.className = 'marks';
  marks.setAttribute('aria-hidden', 'true');
  area.replaceWith(frame);
  frame.append(marks, area);
  return marks;
}
