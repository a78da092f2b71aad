// What a cell of the map has, in words.

import { counted, digits } from '../../app/tools/text.js';

/** @typedef {import('./cells.js').Zoom} Zoom */
/** @typedef {import('./cells.js').Cells} Cells */

/**
 * Which tiles a cell has: '5/10/12', or '14/128-191/64-127' of a block.
 * @param {Zoom} zoom
 * @param {number} column of the cell
 * @param {number} row
 */
export function rangeText({ zoom, shift, firstColumn, lastColumn, firstRow, lastRow }, column, row) {
  return `${zoom}/${spanText(firstColumn, lastColumn, shift, column)}/${spanText(firstRow, lastRow, shift, row)}`;
}

/**
 * @param {number} first
 * @param {number} last
 * @param {number} shift
 * @param {number} cell
 */
function spanText(first, last, shift, cell) {
  const from = first + cell * 2 ** shift, to = Math.min(from + 2 ** shift - 1, last);
  return from === to ? String(from) : `${from}-${to}`;
}

/**
 * A sentence or two for a cell.
 * @param {Zoom} zoom
 * @param {Cells} cells
 * @param {{[code: string]: string}} titles
 * @param {number} column
 * @param {number} row
 */
export function cellText(zoom, { tiles, faulty, unjudged, worst, lost }, titles, column, row) {
  const at = row * zoom.columns + column;
  const name = rangeText(zoom, column, row), isOne = zoom.shift === 0;
  const lostText = lost[at] ? ' A part of the run that wasn\'t judged has tiles here or near.' : '';
  if (!tiles[at]) return `${isOne ? 'Tile' : 'Tiles'} ${name}: not in the source.${lostText}`;
  const worstText = worst[at] ? `${worst[at]} (${titles[worst[at]]})` : '';
  if (isOne && tiles[at] === 1) return `Tile ${name}: ${worst[at] ? `code ${worstText}` : unjudged[at] ? 'not judged' : 'valid'}.${lostText}`;
  const parts = [counted(tiles[at], 'tile'), worst[at] ? `${digits(faulty[at])} with a fault, the worst code is ${worstText}` : 'none with a fault'];
  if (unjudged[at]) parts.push(`${digits(unjudged[at])} not judged`);
  return `Tiles ${name}: ${parts.join(', ')}.${lostText}`;
}

/**
 * What a cell is.
 * @param {Zoom} zoom
 */
export function scaleText({ zoom, shift, columns, rows }) {
  const one = shift === 0 ? 'one tile' : `a block of ${digits(2 ** shift)} by ${digits(2 ** shift)} tiles`;
  return `Zoom ${zoom}: each cell is ${one}. ${counted(columns, 'column')} and ${counted(rows, 'row')} of cells, north is up.`;
}
