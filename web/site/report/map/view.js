// The map of the tiles: a zoom is picked, it is enlarged and moved, pointer and keys say what is in a cell, and a cell leads to the list
// of its tiles.

import { byId, element } from '../../app/tools/dom.js';
import { cellsOf, picturesIn } from './cells.js';
import { drawCells, sizeOfMap } from './draw.js';
import { WHOLE, cellAt, enlarged, moved, showing, sidesOf, within } from './frame.js';
import { cellText, rangeText, scaleText } from './words.js';

/** @typedef {import('./cells.js').MapData} MapData */
/** @typedef {import('./cells.js').Cells} Cells */
/** @typedef {import('../tiles/listing.js').Block} Block */

const DRAG = 4; // pixels by which a pointer may move in a click

/** @type {{[key: string]: [column: number, row: number]}} */
const STEPS = { ArrowLeft: [-1, 0], ArrowRight: [1, 0], ArrowUp: [0, -1], ArrowDown: [0, 1] };

export class MapView {
  #data;
  #chosen = -1;
  /** @type {Cells|null} */
  #cells = null;
  /** @type {{column: number, row: number}|null} the cell under the cursor */
  #at = null;
  #picker = byId('map-zoom', HTMLSelectElement);
  #view = byId('map-view', HTMLElement);
  #canvas = byId('map-canvas', HTMLCanvasElement);
  #cursor = byId('map-cursor', HTMLElement);
  #links = byId('map-links', HTMLElement);
  #button = byId('map-list', HTMLButtonElement);
  #frame = WHOLE;
  #size = { width: 1, height: 1 };
  /** @type {{x: number, y: number, isMoved: boolean}|null} where a pointer was that is pressed */
  #held = null;
  #list;

  /**
   * @param {MapData} data
   * @param {((block: Block, name: string) => void)|null} list shows the faults of a cell
   */
  constructor(data, list) {
    this.#data = data;
    this.#list = list;
  }

  start() {
    this.#picker.addEventListener('change', () => this.#choose(this.#picker.selectedIndex));
    for (const button of document.querySelectorAll('button[data-zoom]')) {
      if (button instanceof HTMLElement) button.addEventListener('click', () => this.#choose(Number(button.dataset.zoom)));
    }
    this.#view.addEventListener('pointermove', (event) => this.#pointed(event));
    this.#view.addEventListener('pointerdown', (event) => this.#hold(event));
    for (const event of ['pointerup', 'pointercancel']) this.#view.addEventListener(event, () => { this.#held = null; });
    this.#view.addEventListener('wheel', (event) => this.#turned(event), { passive: false });
    this.#view.addEventListener('dblclick', () => this.#toList());
    this.#button.addEventListener('click', () => this.#toList());
    for (const [name, steps] of /** @type {[string, number][]} */ ([['map-in', 1], ['map-out', -1], ['map-whole', -99]])) {
      byId(name, HTMLButtonElement).addEventListener('click', () => this.#enlarge(steps));
    }
    this.#view.addEventListener('focus', () => this.#at ?? this.#move(0, 0));
    this.#view.addEventListener('keydown', (event) => this.#pressed(event));
    new ResizeObserver(() => this.#draw()).observe(this.#view);
    matchMedia('(prefers-color-scheme: dark)').addEventListener('change', () => this.#draw());
    for (const event of ['beforeprint', 'afterprint']) addEventListener(event, () => this.#draw());
    this.#choose(this.#data.zooms.length - 1);
  }

  get #zoom() {
    return this.#data.zooms[this.#chosen];
  }

  /** @param {number} index of a zoom */
  async #choose(index) {
    if (index === this.#chosen || !this.#data.zooms[index]) return;
    this.#chosen = index;
    this.#cells = this.#at = null;
    this.#frame = WHOLE;
    this.#picker.selectedIndex = index;
    this.#cursor.hidden = true;
    for (const row of document.querySelectorAll('tr[data-zoom]')) {
      if (row instanceof HTMLElement) row.setAttribute('aria-current', String(Number(row.dataset.zoom) === index));
    }
    try {
      const cells = await cellsOf(this.#zoom);
      if (index !== this.#chosen) return;
      this.#cells = cells;
    } catch (error) {
      this.#say(`The map can't be drawn: ${error instanceof Error ? error.message : error}.`);
      return;
    }
    byId('map-scale', HTMLElement).textContent = scaleText(this.#zoom);
    this.#canvas.setAttribute('aria-label', `Map of the tiles of zoom ${this.#zoom.zoom}; the table by zoom has its numbers`);
    this.#draw();
    if (document.activeElement === this.#view) this.#move(0, 0);
    else this.#say('Point at the map, or use the arrow keys.');
  }

  /** Draws the cells for the width that there is. */
  #draw() {
    if (!this.#cells) return;
    const { width, height } = this.#size = sizeOfMap(this.#zoom, this.#view.clientWidth);
    this.#frame = within(this.#frame, this.#zoom, this.#size);
    this.#canvas.width = Math.round(width * devicePixelRatio);
    this.#canvas.height = Math.round(height * devicePixelRatio);
    this.#canvas.style.width = `${width}px`;
    this.#canvas.style.height = `${height}px`;
    drawCells(this.#canvas, this.#zoom, this.#cells, this.#data.classes, this.#frame);
    this.#view.dataset.scale = this.#frame.scale.toFixed(2);
    byId('map-out', HTMLButtonElement).disabled = byId('map-whole', HTMLButtonElement).disabled = this.#frame.scale === 1;
    this.#placeCursor();
  }

  /**
   * @param {number} steps
   * @param {number} [x]
   * @param {number} [y]
   */
  #enlarge(steps, x, y) {
    this.#frame = enlarged(this.#frame, this.#zoom, this.#size, steps, x, y);
    this.#draw();
  }

  /**
   * The wheel scrolls the page, but with Ctrl, as two fingers send it, or once the map was clicked.
   * @param {WheelEvent} event
   */
  #turned(event) {
    if (!event.ctrlKey && document.activeElement !== this.#view) return;
    event.preventDefault();
    const box = this.#canvas.getBoundingClientRect();
    this.#enlarge(event.deltaY < 0 ? 1 : -1, event.clientX - box.left, event.clientY - box.top);
  }

  /** @param {PointerEvent} event */
  #hold(event) {
    this.#held = { x: event.clientX, y: event.clientY, isMoved: false };
    this.#pointed(event);
  }

  /**
   * Moves the map with the pointer that holds it. Whether it does.
   * @param {PointerEvent} event
   */
  #drag({ clientX, clientY, pointerId }) {
    const held = this.#held;
    if (!held || this.#frame.scale === 1) return false;
    const x = clientX - held.x, y = clientY - held.y;
    if (!held.isMoved && Math.hypot(x, y) < DRAG) return false;
    this.#view.setPointerCapture(pointerId);
    this.#held = { x: clientX, y: clientY, isMoved: true };
    this.#frame = moved(this.#frame, this.#zoom, this.#size, x, y);
    this.#draw();
    return true;
  }

  /** Shows the list of the tiles of the cell under the cursor that have a fault. */
  #toList() {
    if (!this.#at || !this.#list || this.#button.hidden) return;
    const { source, zoom, shift, firstColumn, firstRow } = this.#zoom, side = 2 ** shift;
    const column = firstColumn + this.#at.column * side, row = firstRow + this.#at.row * side;
    this.#list({ source, zoom, columns: [column, column + side - 1], rows: [row, row + side - 1] }, rangeText(this.#zoom, this.#at.column, this.#at.row));
  }

  /** @param {PointerEvent} event */
  #pointed(event) {
    if (this.#drag(event)) return;
    const box = this.#canvas.getBoundingClientRect();
    const cell = cellAt(this.#frame, this.#zoom, this.#size, event.clientX - box.left, event.clientY - box.top);
    if (cell) this.#show(cell.column, cell.row);
  }

  /** @param {KeyboardEvent} event */
  #pressed(event) {
    if (event.ctrlKey || event.altKey || event.metaKey) return;
    const step = STEPS[event.key], key = event.key.toLowerCase();
    if (step) this.#move(...step);
    else if (key === 'n' || key === 'p') this.#jump(key === 'n' ? 1 : -1);
    else if (key === '+' || key === '=' || key === '-') this.#choose(this.#chosen + (key === '-' ? -1 : 1));
    else if (key === 'i' || key === 'o') this.#enlarge(key === 'i' ? 1 : -1);
    else if (key === 'l') this.#toList();
    else if (key === 'enter') this.#links.querySelector('a')?.click();
    else return;
    event.preventDefault();
  }

  /**
   * Moves the cursor, which begins in the north-west.
   * @param {number} across
   * @param {number} down
   */
  #move(across, down) {
    const { columns, rows } = this.#zoom, from = this.#at;
    const column = from ? from.column + across : 0, row = from ? from.row + down : 0;
    this.#go(Math.min(Math.max(column, 0), columns - 1), Math.min(Math.max(row, 0), rows - 1));
  }

  /**
   * Says what is in a cell, which is seen then.
   * @param {number} column
   * @param {number} row
   */
  #go(column, row) {
    if (this.#frame.scale > 1) {
      this.#frame = showing(this.#frame, this.#zoom, this.#size, column, row);
      this.#draw();
    }
    this.#show(column, row);
  }

  /**
   * Moves the cursor to the next cell with a fault, or the previous one.
   * @param {1|-1} step
   */
  #jump(step) {
    const worst = this.#cells?.worst ?? [], { columns } = this.#zoom, count = worst.length;
    const from = this.#at ? this.#at.row * columns + this.#at.column : step > 0 ? -1 : 0;
    for (let k = 1; k <= count; k += 1) {
      const at = (from + step * k + count * 2) % count;
      if (worst[at]) return this.#go(at % columns, Math.floor(at / columns));
    }
    return this.#say(`No cell of zoom ${this.#zoom.zoom} has a fault.`);
  }

  /**
   * Says what is in a cell.
   * @param {number} column
   * @param {number} row
   */
  #show(column, row) {
    if (!this.#cells || (this.#at?.column === column && this.#at.row === row)) return;
    this.#at = { column, row };
    this.#placeCursor();
    this.#say(cellText(this.#zoom, this.#cells, this.#data.titles, column, row));
    const pictures = picturesIn(this.#data, this.#zoom, column, row);
    const links = pictures.flatMap(({ id }) => [' ', element('a', { href: `#${id}` }, nameOf(id))]);
    this.#links.append(...(links.length ? ['Pictures:', ...links] : []));
    this.#links.hidden = links.length === 0;
    const at = row * this.#zoom.columns + column;
    this.#button.hidden = this.#list === null || !this.#cells.faulty[at];
    this.#button.textContent = `List the tiles of ${rangeText(this.#zoom, column, row)} with a fault`;
    this.#view.dataset.cell = rangeText(this.#zoom, column, row);
  }

  #placeCursor() {
    this.#cursor.hidden = this.#at === null;
    if (!this.#at) return;
    const { across, down } = sidesOf(this.#frame, this.#zoom, this.#size), { style } = this.#cursor;
    const left = (this.#at.column - this.#frame.left) * across, top = (this.#at.row - this.#frame.top) * down;
    const isSeen = left > -across && top > -down && left < this.#size.width && top < this.#size.height;
    this.#cursor.hidden = !isSeen;
    style.left = `${left}px`;
    style.top = `${top}px`;
    style.width = `${Math.max(across, 4)}px`;
    style.height = `${Math.max(down, 4)}px`;
  }

  /** @param {string} text */
  #say(text) {
    byId('map-cell', HTMLElement).textContent = text;
    this.#links.replaceChildren();
    this.#links.hidden = this.#button.hidden = true;
  }
}

/**
 * The name of the tile whose picture has this identifier.
 * @param {string} identifier
 */
function nameOf(identifier) {
  return document.getElementById(identifier)?.dataset.tile ?? identifier;
}
