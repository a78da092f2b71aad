// Rows of a tile's bytes, those around a place, in hexadecimal and as letters.

import { element } from '../tools/dom.js';

/** @typedef {import('./parts.js').Part} Part */

const ROWS = 24;
const WIDE = 16, NARROW = 8; // bytes in a row
const LEAST_WIDTH = 630; // pixels of sixteen bytes with their offset and letters

export class ByteRows {
  #host;
  #calls;
  #bytes = new Uint8Array();
  #columns = WIDE;
  #first = 0; // the offset of the first row
  /** @type {Map<number, HTMLElement>} what is shown of each byte */
  #shown = new Map();
  /** @type {Part|null} */
  #chosen = null;
  /** The byte to which the keys have come. */
  place = 0;

  /**
   * @param {HTMLElement} host
   * @param {{choose: (place: number) => void, point: (place: number|null) => void}} calls a byte was chosen by the user; one is pointed at
   */
  constructor(host, calls) {
    this.#host = host;
    this.#calls = calls;
    host.addEventListener('click', (event) => {
      const place = placeOf(event.target);
      if (place !== null) calls.choose(place);
    });
    host.addEventListener('keydown', (event) => this.#pressed(event));
    host.addEventListener('pointerover', (event) => calls.point(placeOf(event.target)));
    host.addEventListener('pointerleave', () => calls.point(null));
  }

  /** @param {Uint8Array} bytes */
  show(bytes) {
    this.#bytes = bytes;
    this.#columns = this.#host.clientWidth < LEAST_WIDTH ? NARROW : WIDE;
    this.#first = 0;
    this.#chosen = null;
    this.place = 0;
    this.#draw();
  }

  clear() {
    this.#bytes = new Uint8Array();
    this.#chosen = null;
    this.#shown.clear();
    this.#host.replaceChildren();
  }

  /**
   * Marks the bytes of a part, of which one is in sight.
   * @param {Part} part
   * @param {number} place
   */
  mark(part, place) {
    this.#chosen = part;
    this.place = place;
    const row = Math.floor(place / this.#columns), first = this.#first / this.#columns;
    if (row < first || row >= first + ROWS) this.#first = Math.max(0, row - 2) * this.#columns;
    this.#draw();
  }

  /**
   * Lights up the bytes of a part that are in sight; none for null.
   * @param {Part|null} part
   */
  light(part) {
    for (const [place, shown] of this.#shown) shown.classList.toggle('lit', part !== null && place >= part.at && place < part.end);
  }

  /**
   * Shows the rows before or after those that are shown.
   * @param {1|-1} by
   */
  turn(by) {
    const first = this.#first + by * ROWS * this.#columns;
    if (first >= this.#bytes.length) return;
    this.#first = Math.max(0, first);
    this.#draw();
  }

  /** Whether there are bytes before those that are shown, and after them. */
  get hasMore() {
    return { before: this.#first > 0, after: this.#first + ROWS * this.#columns < this.#bytes.length };
  }

  #draw() {
    this.#shown.clear();
    const end = Math.min(this.#bytes.length, this.#first + ROWS * this.#columns), rows = [];
    for (let begin = this.#first; begin < end; begin += this.#columns) rows.push(this.#row(begin, Math.min(begin + this.#columns, end)));
    this.#host.replaceChildren(...rows);
  }

  /**
   * @param {number} begin
   * @param {number} end
   */
  #row(begin, end) {
    const places = Array.from({ length: end - begin }, (_, at) => begin + at);
    const letters = places.map((place) => letterOf(this.#bytes[place])).join('');
    return element('div', { class: 'bytes-row' },
      element('span', { class: 'bytes-at' }, String(begin)), ...places.map((place) => this.#byte(place)), element('span', { class: 'bytes-letters' }, letters));
  }

  /** @param {number} place */
  #byte(place) {
    const shown = element('span', { class: ['byte', ...this.#styles(place)].join(' '), 'data-place': place }, this.#bytes[place].toString(16).padStart(2, '0'));
    this.#shown.set(place, shown);
    return shown;
  }

  /**
   * @param {number} place
   * @returns {string[]}
   */
  #styles(place) {
    const part = this.#chosen, here = place === this.place ? ['here'] : [];
    if (!part || place < part.at || place >= part.end) return here;
    return [...here, place < part.keyEnd ? 'of-key' : place < part.payload ? 'of-length' : 'of-content'];
  }

  /** @param {KeyboardEvent} event */
  #pressed(event) {
    /** @type {{[key: string]: number}} */
    const steps = { ArrowLeft: -1, ArrowRight: 1, ArrowUp: -this.#columns, ArrowDown: this.#columns, PageUp: -ROWS * this.#columns, PageDown: ROWS * this.#columns };
    const step = steps[event.key];
    if (step === undefined || !this.#bytes.length || event.ctrlKey || event.altKey || event.metaKey) return;
    event.preventDefault();
    this.#calls.choose(Math.min(Math.max(this.place + step, 0), this.#bytes.length - 1));
  }
}

/**
 * @param {EventTarget|null} target
 * @returns {number|null} the byte that is there
 */
function placeOf(target) {
  const place = target instanceof HTMLElement ? target.dataset.place : undefined;
  return place === undefined ? null : Number(place);
}

/** @param {number} byte */
function letterOf(byte) {
  return byte > 32 && byte < 127 ? String.fromCharCode(byte) : '·';
}
