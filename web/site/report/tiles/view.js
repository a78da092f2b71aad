// The list of all faulty tiles: what is looked for in it, a page of what was found, and files of it.

import { byId, element } from '../../app/tools/dom.js';
import { saveFile } from '../../app/tools/hand_over.js';
import { counted, digits } from '../../app/tools/text.js';
import { csvOf, geojsonOf } from './files.js';
import { found, tableOf, tileName, tilesIn } from './listing.js';

/** @typedef {import('./listing.js').Table} Table */
/** @typedef {import('./listing.js').Block} Block */
/** @typedef {{titles: {[code: string]: string}, pictures: import('../map/cells.js').PicturePlace[]}} MapData */

const PAGE = 100;
const WAIT = 150; // milliseconds after the last key, so that a word isn't looked for letter by letter

export class TileList {
  #data;
  #packed;
  /** @type {Table|null} */
  #table = null;
  /** @type {number[]} what was found */
  #listed = [];
  #first = 0;
  /** @type {Block|null} */
  #block = null;
  #timer = 0;
  #search = byId('tiles-search', HTMLInputElement);
  #code = byId('tiles-code', HTMLSelectElement);
  #layer = byId('tiles-layer', HTMLSelectElement);
  #body = byId('tiles-body', HTMLTableSectionElement);

  /**
   * @param {{table: string, sources: string[], names: string[]}} data the packed table; the paths of sources, and their names in tables
   * @param {MapData} map
   */
  constructor({ table, sources, names }, map) {
    this.#packed = table;
    this.#data = { ...map, sources, names };
  }

  async start() {
    this.#search.addEventListener('input', () => this.#soon());
    for (const picker of [this.#code, this.#layer]) picker.addEventListener('change', () => this.#look());
    byId('tiles-cell', HTMLButtonElement).addEventListener('click', () => this.show(null));
    byId('tiles-next', HTMLButtonElement).addEventListener('click', () => this.#turn(PAGE));
    byId('tiles-previous', HTMLButtonElement).addEventListener('click', () => this.#turn(-PAGE));
    byId('tiles-csv', HTMLButtonElement).addEventListener('click', () => this.#save('faults.csv', 'text/csv', csvOf));
    byId('tiles-geojson', HTMLButtonElement).addEventListener('click', () => this.#save('faults.geojson', 'application/geo+json', geojsonOf));
    this.#body.addEventListener('click', (event) => this.#pressed(event));
    try {
      this.#table = await tableOf(this.#packed);
    } catch (error) {
      byId('tiles-count', HTMLElement).textContent = `The list can't be read: ${error instanceof Error ? error.message : error}.`;
      return;
    }
    this.#packed = '';
    this.#offer(this.#table);
    this.#look();
  }

  /**
   * Lists the faults of a block of tiles, or of all.
   * @param {Block|null} block
   * @param {string} [name]
   */
  show(block, name = '') {
    this.#block = block;
    const button = byId('tiles-cell', HTMLButtonElement);
    button.hidden = block === null;
    button.textContent = `Tiles ${name} ✕`;
    button.setAttribute('aria-label', `Tiles ${name}: show all again`);
    this.#look();
    if (block) byId('tiles', HTMLElement).scrollIntoView();
  }

  /**
   * The codes and layers that there are.
   * @param {Table} table
   */
  #offer({ code, layer, layers }) {
    const codes = [...new Set(code)].sort((a, b) => a - b), used = new Set(layer);
    this.#code.append(...codes.map((it) => element('option', { value: it }, `${it}: ${this.#data.titles[it] ?? ''}`)));
    const names = layers.map((name, at) => ({ name, at })).sort((a, b) => (a.name < b.name ? -1 : 1));
    this.#layer.append(...names.map(({ name, at }) => element('option', { value: at }, name === '' ? 'empty name' : name)));
    if (used.has(-1)) this.#layer.append(element('option', { value: -1 }, 'no layer'));
  }

  #soon() {
    clearTimeout(this.#timer);
    this.#timer = window.setTimeout(() => this.#look(), WAIT);
  }

  #look() {
    if (!this.#table) return;
    clearTimeout(this.#timer);
    const layer = this.#layer.value === '' ? null : Number(this.#layer.value);
    this.#listed = found(this.#table, { text: this.#search.value, code: Number(this.#code.value), layer, block: this.#block });
    this.#first = 0;
    this.#show(this.#table);
  }

  /** @param {number} step */
  #turn(step) {
    if (!this.#table) return;
    this.#first = Math.max(0, this.#first + step);
    this.#show(this.#table);
  }

  /** @param {Table} table */
  #show(table) {
    const { length } = this.#listed, last = Math.min(this.#first + PAGE, length);
    byId('tiles-count', HTMLElement).textContent = `${counted(length, 'fault')} in ${counted(tilesIn(table, this.#listed), 'tile')}`;
    byId('tiles-page', HTMLElement).textContent = length > PAGE ? `${digits(this.#first + 1)} to ${digits(last)} of ${digits(length)}` : '';
    byId('tiles-previous', HTMLButtonElement).disabled = this.#first === 0;
    byId('tiles-next', HTMLButtonElement).disabled = last === length;
    byId('tiles-pages', HTMLElement).hidden = length <= PAGE;
    for (const name of ['tiles-csv', 'tiles-geojson']) byId(name, HTMLButtonElement).disabled = length === 0;
    this.#body.replaceChildren(...this.#listed.slice(this.#first, last).map((at) => this.#rowOf(table, at)));
    byId('tiles', HTMLElement).dataset.state = 'ready';
  }

  /**
   * @param {Table} table
   * @param {number} at
   */
  #rowOf(table, at) {
    const name = tileName(table, at), layer = table.layers[table.layer[at]];
    const source = this.#data.names[table.source[at]];
    const tile = element('button', { type: 'button', class: 'quiet tile', 'data-at': at, 'aria-label': `All faults of tile ${name}` }, name);
    return element('tr', {},
      element('th', { scope: 'row' }, tile, ...(source ? [' ', element('span', { class: 'small source' }, source)] : [])),
      element('td', {}, layer === undefined ? element('em', {}, 'no layer') : layer === '' ? element('em', {}, 'empty name') : element('span', { class: 'layer' }, layer)),
      element('td', {}, String(table.id[at] ?? 'none')),
      element('td', { class: 'number' }, String(table.code[at])),
      element('td', {}, table.sentence[at], ...this.#pictureOf(table, at, name)));
  }

  /**
   * A link to the tile's picture, where the report has one.
   * @param {Table} table
   * @param {number} at
   * @param {string} name
   * @returns {(Node|string)[]}
   */
  #pictureOf(table, at, name) {
    const picture = this.#data.pictures.find((it) => it.zoom === table.zoom[at] && it.column === table.column[at] && it.row === table.row[at]
      && it.source === table.source[at] && it.id.startsWith(`tile-${table.code[at]}-`));
    return picture ? [' ', element('a', { href: `#${picture.id}`, 'aria-label': `Picture of tile ${name}` }, 'picture')] : [];
  }

  /** @param {Event} event */
  #pressed(event) {
    const button = event.target instanceof Element ? event.target.closest('button') : null;
    if (!button || !this.#table) return;
    const at = Number(button.dataset.at), { source, zoom, column, row } = this.#table;
    this.show({ source: source[at], zoom: zoom[at], columns: [column[at], column[at]], rows: [row[at], row[at]] }, tileName(this.#table, at));
  }

  /**
   * @param {string} name
   * @param {string} type
   * @param {(table: Table, listed: number[], sources: string[]) => string} textOf
   */
  #save(name, type, textOf) {
    if (this.#table) saveFile(name, type, textOf(this.#table, this.#listed, this.#data.sources));
  }
}
