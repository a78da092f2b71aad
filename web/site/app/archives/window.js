// Which tiles of a zoom are seen in the grid: a square of them.

/** @typedef {import('./open.js').Place} Place */
/** @typedef {{zoom: number, left: number, top: number, side: number}} Window columns and rows from the first ones on */

/** How many columns and rows are seen, where the zoom has as many. */
export const SIDE = 12;

/**
 * The window with a tile in its middle, as far as that can be.
 * @param {Place} place
 * @returns {Window}
 */
export function windowAround({ zoom, column, row }) {
  const count = 2 ** zoom, side = Math.min(SIDE, count);
  const within = (/** @type {number} */ at) => Math.min(Math.max(at - Math.floor(side / 2), 0), count - side);
  return { zoom, left: within(column), top: within(row), side };
}

/**
 * The window that is so many columns and rows further.
 * @param {Window} window
 * @param {number} across
 * @param {number} down
 */
export function movedBy({ zoom, left, top, side }, across, down) {
  const half = Math.floor(side / 2);
  return windowAround({ zoom, column: left + half + across, row: top + half + down });
}

/**
 * The places in a window, row by row.
 * @param {Window} window
 * @returns {Place[]}
 */
export function placesIn({ zoom, left, top, side }) {
  return Array.from({ length: side * side }, (_, at) => ({ zoom, column: left + (at % side), row: top + Math.floor(at / side) }));
}

/**
 * @param {Window} window
 * @param {Place} place
 */
export function isIn({ zoom, left, top, side }, place) {
  return place.zoom === zoom && place.column >= left && place.column < left + side && place.row >= top && place.row < top + side;
}

/**
 * The tile of another zoom that has this one in it, or is in the middle of it.
 * @param {Place} place
 * @param {number} zoom
 * @returns {Place}
 */
export function atZoom(place, zoom) {
  const ratio = 2 ** (zoom - place.zoom), middle = Math.floor(ratio / 2);
  return { zoom, column: Math.floor(place.column * ratio) + middle, row: Math.floor(place.row * ratio) + middle };
}

/**
 * The one of these places that is nearest to another; null of none.
 * @param {Place[]} places
 * @param {Place} to
 */
export function nearest(places, to) {
  const far = (/** @type {Place} */ { column, row }) => (column - to.column) ** 2 + (row - to.row) ** 2;
  return places.reduce((/** @type {Place|null} */ best, it) => (best && far(best) <= far(it) ? best : it), null);
}

/**
 * The place in the middle of the least square around these, of which there is one at least.
 * @param {Place[]} places
 * @returns {Place}
 */
export function middlePlace(places) {
  const middle = (/** @type {number[]} */ of) => Math.floor((Math.min(...of) + Math.max(...of) + 1) / 2);
  return { zoom: places[0].zoom, column: middle(places.map(({ column }) => column)), row: middle(places.map(({ row }) => row)) };
}

/** @param {Place} place */
export function placeText({ zoom, column, row }) {
  return `${zoom}/${column}/${row}`;
}

/**
 * The place that a text names as z/x/y; null where it names none.
 * @param {string} text
 * @returns {Place|null}
 */
export function placeOfText(text) {
  const [, zoom, column, row] = (/^\s*(\d{1,2})\/(\d{1,10})\/(\d{1,10})\s*$/.exec(text) ?? []).map(Number);
  return zoom <= 30 && Math.max(column, row) < 2 ** zoom ? { zoom, column, row } : null;
}
