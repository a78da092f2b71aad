// The cells of the map, as the report has them.

import { bytesOfBase64 } from '../../app/files/link.js';
import { unpack } from '../../app/files/packing.js';

/**
 * The tiles of a source at a zoom. A cell has 2 ** shift columns and rows of them. `cells` are the packed numbers of the cells.
 * @typedef {object} Zoom
 * @property {number} source
 * @property {string} sourceName empty where the run has one source
 * @property {number} zoom
 * @property {number} shift
 * @property {number} firstColumn
 * @property {number} lastColumn
 * @property {number} firstRow
 * @property {number} lastRow
 * @property {number} columns of cells
 * @property {number} rows of cells
 * @property {string} cells
 */
/**
 * Numbers of each cell, row by row from the north-west: its tiles, those with a fault and those that weren't judged, the worst code or
 * 0, and whether tiles of it weren't judged of which it isn't known where they are.
 * @typedef {{tiles: number[], faulty: number[], unjudged: number[], worst: number[], lost: number[]}} Cells
 */
/** @typedef {{name: string, first: number}} CodeClass the codes from `first` up to the next class */
/** @typedef {{id: string, source: number, zoom: number, column: number, row: number}} PicturePlace */
/** @typedef {{classes: CodeClass[], titles: {[code: string]: string}, zooms: Zoom[], pictures: PicturePlace[]}} MapData */

/**
 * @param {Zoom} zoom
 * @returns {Promise<Cells>}
 */
export async function cellsOf({ cells }) {
  return JSON.parse(new TextDecoder().decode(await unpack(bytesOfBase64(cells))));
}

/**
 * The name of what a cell has: that of its worst code's class, or else unjudged, valid, or empty without tiles.
 * @param {Cells} cells
 * @param {number} at
 * @param {CodeClass[]} classes
 */
export function lookOf({ tiles, unjudged, worst, lost }, at, classes) {
  if (worst[at]) return classes.filter(({ first }) => first <= worst[at]).reduce((a, b) => (a.first > b.first ? a : b)).name;
  if (unjudged[at] || lost[at]) return 'unjudged';
  return tiles[at] ? 'valid' : 'empty';
}

/**
 * How strong the colour of a cell is, by the share of its tiles that have a fault.
 * @param {Cells} cells
 * @param {number} at
 * @returns {number} up to 1
 */
export function strengthOf({ tiles, faulty, worst }, at) {
  if (!worst[at]) return 1;
  const share = faulty[at] / tiles[at];
  return share < 0.01 ? 0.5 : share < 0.1 ? 0.75 : 1;
}

/**
 * The pictures of tiles in a cell.
 * @param {MapData} data
 * @param {Zoom} zoom
 * @param {number} column of the cell
 * @param {number} row
 */
export function picturesIn({ pictures }, { source, zoom, shift, firstColumn, firstRow }, column, row) {
  return pictures.filter((it) => it.source === source && it.zoom === zoom
    && (it.column - firstColumn) >> shift === column && (it.row - firstRow) >> shift === row);
}
