// A grid of tiles, of which one is picked by a click or by keys (the pattern 'grid' of the ARIA Authoring Practices): one cell at a time
// can have the focus.

import { element } from '../tools/dom.js';
import { isIn, placeText, placesIn } from './window.js';

/** @typedef {import('./open.js').Place} Place */
/** @typedef {import('./window.js').Window} Window */
/** @typedef {{state: string, says: string, isShown: boolean}} Look of a cell: what is known of its tile, also in words, and whether its answer is shown */

/** @type {{[key: string]: [across: number, down: number]}} */
const STEPS = { ArrowLeft: [-1, 0], ArrowRight: [1, 0], ArrowUp: [0, -1], ArrowDown: [0, 1] };

export class Grid {
  #host;
  #calls;
  #lookOf;
  /** @type {Window|null} */
  #window = null;
  /** @type {HTMLElement[]} row by row */
  #cells = [];
  /** @type {Place|null} */
  #cursor = null;

  /**
   * @param {HTMLElement} host
   * @param {(place: Place) => Look} lookOf
   * @param {{move: (place: Place) => void, open: (place: Place) => void}} calls: the cursor went to a tile, which may be out of sight; one was picked
   */
  constructor(host, lookOf, calls) {
    this.#host = host;
    this.#lookOf = lookOf;
    this.#calls = calls;
    host.addEventListener('click', (event) => this.#clicked(event));
    host.addEventListener('keydown', (event) => this.#pressed(event));
  }

  /**
   * @param {Window} window
   * @param {Place} cursor in it
   */
  show(window, cursor) {
    const hadFocus = this.#host.contains(document.activeElement);
    if (window.side !== this.#window?.side) this.#build(window.side);
    this.#window = window;
    placesIn(window).forEach((place, at) => this.#paint(this.#cells[at], place));
    this.mark(cursor);
    if (hadFocus) this.focus();
  }

  /** @param {number} side */
  #build(side) {
    this.#cells = Array.from({ length: side * side }, () => element('div', { role: 'gridcell', class: 'cell', tabindex: -1 }));
    const rows = Array.from({ length: side }, (_, at) => element('div', { role: 'row', class: 'cells' }, ...this.#cells.slice(at * side, (at + 1) * side)));
    this.#host.replaceChildren(...rows);
  }

  /**
   * @param {HTMLElement} cell
   * @param {Place} place
   */
  #paint(cell, place) {
    const { state, says, isShown } = this.#lookOf(place), name = placeText(place);
    cell.dataset.state = state;
    cell.dataset.tile = name;
    cell.title = `${name}: ${says}`;
    cell.setAttribute('aria-label', cell.title);
    cell.setAttribute('aria-selected', String(isShown));
  }

  /**
   * Shows what became of a tile, where it is seen.
   * @param {Place} place
   */
  update(place) {
    const cell = this.#cellOf(place);
    if (cell) this.#paint(cell, place);
  }

  /**
   * Moves the cursor.
   * @param {Place} place
   */
  mark(place) {
    for (const cell of this.#host.querySelectorAll('[tabindex="0"]')) cell.setAttribute('tabindex', '-1');
    this.#cursor = place;
    this.#cellOf(place)?.setAttribute('tabindex', '0');
  }

  focus() {
    if (this.#cursor) this.#cellOf(this.#cursor)?.focus();
  }

  /** @param {Place} place */
  #cellOf(place) {
    if (!this.#window || !isIn(this.#window, place)) return null;
    const { left, top, side } = this.#window;
    return this.#cells[(place.row - top) * side + place.column - left];
  }

  /** @param {MouseEvent} event */
  #clicked(event) {
    const cell = event.target instanceof Element ? event.target.closest('[role=gridcell]') : null, at = this.#cells.findIndex((it) => it === cell);
    if (at < 0 || !this.#window) return;
    const place = placesIn(this.#window)[at];
    this.#calls.move(place);
    this.#calls.open(place);
  }

  /** @param {KeyboardEvent} event */
  #pressed(event) {
    if (!this.#cursor || event.ctrlKey || event.altKey || event.metaKey) return;
    const step = STEPS[event.key], isPick = event.key === 'Enter' || event.key === ' ';
    if (!step && !isPick) return;
    event.preventDefault();
    if (isPick) return this.#calls.open(this.#cursor);
    const { zoom, column, row } = this.#cursor, next = { zoom, column: column + step[0], row: row + step[1] };
    if (Math.min(next.column, next.row) >= 0 && Math.max(next.column, next.row) < 2 ** zoom) this.#calls.move(next);
  }
}
