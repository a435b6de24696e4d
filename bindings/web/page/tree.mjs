// The outline of a value: a row for each value in it, indented by its depth.
import { bringIntoSight } from './lights.mjs';
import { shownName } from './names.mjs';

export class Tree {
  #box;
  #lights;
  #rows = [];
  #elements = [];
  #first = 0;
  #active = -1;

  constructor(box, lights) {
    this.#box = box;
    this.#lights = lights;
    lights.add(this);
    box.addEventListener('pointerover', (event) => this.#point(event));
    box.addEventListener('click', (event) => this.#point(event));
    box.addEventListener('pointerleave', () => lights.dark());
    box.addEventListener('keydown', (event) => this.#move(event));
    box.addEventListener('focus', () => this.#activate(Math.max(this.#active, 0)));
    box.addEventListener('blur', () => lights.dark());
  }

  show({ rows, first, stop }) {
    this.#rows = rows;
    this.#first = first;
    this.#active = -1;
    this.#elements = rows.map((row, i) => elementOf(row, i));
    this.#box.replaceChildren(...this.#elements, ...(stop ? [stopOf(stop)] : []));
  }

  light([from], owner) {
    for (const element of this.#elements) {
      element.classList.remove('lit');
      element.setAttribute('aria-selected', 'false');
    }
    const lit = owner === this ? this.#active : this.#rowOf(from);
    const element = this.#elements[lit];
    if (from < 0 || element === undefined) return;
    this.#active = lit;
    element.classList.add('lit');
    element.setAttribute('aria-selected', 'true');
    if (owner !== this) bringIntoSight(this.#box, element);
  }

  /** The row that a piece is an own piece of. */
  #rowOf(piece) {
    return this.#rows.findIndex((row) => row.from <= piece + this.#first && piece + this.#first < row.own);
  }

  #point(event) {
    const element = event.target.closest?.('[role=treeitem]');
    if (element) this.#activate(Number(element.dataset.row));
  }

  #activate(i) {
    const row = this.#rows[i];
    if (row === undefined) return;
    this.#active = i;
    const range = [row.from, row.own, row.to].map((piece) => Math.max(piece - this.#first, 0));
    this.#lights.light(range, this);
    this.#box.setAttribute('aria-activedescendant', this.#elements[i].id);
    bringIntoSight(this.#box, this.#elements[i]);
  }

  #move(event) {
    const last = this.#rows.length - 1;
    const to = {
      ArrowDown: () => Math.min(this.#active + 1, last),
      ArrowUp: () => Math.max(this.#active - 1, 0),
      ArrowRight: () => Math.min(this.#active + 1, last),
      ArrowLeft: () => this.#parentOf(this.#active),
      Home: () => 0,
      End: () => last,
    }[event.key];
    if (to === undefined || event.ctrlKey || event.metaKey || event.altKey) return;
    event.preventDefault();
    this.#activate(to());
  }

  #parentOf(i) {
    for (let above = i - 1; above >= 0; above--) {
      if (this.#rows[above].level < this.#rows[i].level) return above;
    }
    return 0;
  }
}

function elementOf(row, i) {
  const element = document.createElement('div');
  element.id = `row-${i}`;
  element.dataset.row = String(i);
  element.setAttribute('role', 'treeitem');
  element.setAttribute('aria-level', String(row.level + 1));
  element.setAttribute('aria-selected', 'false');
  element.style.setProperty('--level', String(Math.min(row.level, 12)));
  element.append(part('label', row.label || 'value'), ' ', part('value', row.value ?? '', 200), ' ', part('what', row.what));
  return element;
}

function part(name, text, most) {
  const span = document.createElement('span');
  span.className = name;
  span.textContent = shownName(text, most);
  return span;
}

function stopOf(stop) {
  const element = document.createElement('div');
  element.className = 'stop';
  element.append(part('label', `${stop.refused} at ${stop.place}`), ' ', part('value', `expected: ${stop.want}`, 300));
  return element;
}
