// Draws the cells of the map.

import { lookOf, strengthOf } from './cells.js';
import { WHOLE, sidesOf } from './frame.js';

/** @typedef {import('./cells.js').Zoom} Zoom */
/** @typedef {import('./cells.js').Cells} Cells */
/** @typedef {import('./cells.js').CodeClass} CodeClass */
/** @typedef {import('./frame.js').Frame} Frame */

const LARGEST = 48; // pixels of a cell
const HIGHEST = 620; // pixels of the map
const LEAST_WITH_GAPS = 5;
const LEAST_WHOLE = 3; // smaller cells may differ by a pixel, so that the map is as large as it can be

/**
 * How large the map is.
 * @param {Zoom} zoom
 * @param {number} room pixels in a row
 * @returns {{width: number, height: number}}
 */
export function sizeOfMap({ columns, rows }, room) {
  const fitting = Math.min(room / columns, HIGHEST / rows, LARGEST);
  const side = fitting >= LEAST_WHOLE ? Math.floor(fitting) : fitting;
  return { width: Math.max(1, Math.round(columns * side)), height: Math.max(1, Math.round(rows * side)) };
}

/**
 * @param {HTMLCanvasElement} canvas whose size in the page is set
 * @param {Zoom} zoom
 * @param {Cells} cells
 * @param {CodeClass[]} classes
 * @param {Frame} [frame] what of it is seen
 */
export function drawCells(canvas, zoom, cells, classes, frame = WHOLE) {
  const context = canvas.getContext('2d');
  if (!context) return;
  const { columns, rows } = zoom;
  const colours = coloursOf(canvas, [...classes.map(({ name }) => name), 'unjudged', 'valid', 'empty']);
  const sides = sidesOf(frame, zoom, canvas);
  const across = edgesOf(columns, sides.across, frame.left), down = edgesOf(rows, sides.down, frame.top);
  context.fillStyle = colours.empty;
  context.fillRect(0, 0, canvas.width, canvas.height);
  for (let row = Math.floor(frame.top); row < rows && down[row] < canvas.height; row += 1) {
    for (let column = Math.floor(frame.left); column < columns && across[column] < canvas.width; column += 1) {
      const at = row * columns + column, look = lookOf(cells, at, classes);
      if (look === 'empty') continue;
      fill(context, look === 'unjudged' ? colours.unjudged : colours.valid, 1, across, down, column, row);
      if (cells.worst[at]) fill(context, colours[look], strengthOf(cells, at), across, down, column, row);
    }
  }
}

/**
 * @param {CanvasRenderingContext2D} context
 * @param {string} colour
 * @param {number} strength
 * @param {number[]} across
 * @param {number[]} down
 * @param {number} column
 * @param {number} row
 */
function fill(context, colour, strength, across, down, column, row) {
  const [x, y, width, height] = [across[column], down[row], across[column + 1] - across[column], down[row + 1] - down[row]];
  const gap = Math.min(width, height) >= LEAST_WITH_GAPS * devicePixelRatio ? Math.round(devicePixelRatio) : 0;
  context.globalAlpha = strength;
  context.fillStyle = colour;
  context.fillRect(x, y, Math.max(1, width - gap), Math.max(1, height - gap));
  context.globalAlpha = 1;
}

/**
 * Where cells begin and end, in whole pixels.
 * @param {number} count
 * @param {number} side of a cell
 * @param {number} first the cell at the edge of the map, or a part of it
 */
function edgesOf(count, side, first) {
  return Array.from({ length: count + 1 }, (_, at) => Math.round((at - first) * side));
}

/**
 * The colours of the looks, which the style has as custom properties.
 * @param {HTMLElement} element
 * @param {string[]} looks
 * @returns {{[look: string]: string}}
 */
function coloursOf(element, looks) {
  const style = getComputedStyle(element);
  return Object.fromEntries(looks.map((look) => [look, style.getPropertyValue(`--map-${look}`).trim()]));
}
