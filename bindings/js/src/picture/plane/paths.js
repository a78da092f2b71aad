// The path data of shapes, in pixels.

import { enlarged, holds, meets } from './box.js';
import { clip } from './clip.js';
import { pixels, toLeft, toTop } from './frame.js';

/** @typedef {import('./frame.js').Frame} Frame */
/** @typedef {import('./clip.js').Line} Line */
/** @typedef {import('./scene.js').Shape} Shape */

const MARGIN = 60; // pixels around what is seen that are drawn too
const LEAST_STEP = 0.4; // pixels: what is less apart is drawn as one
const MOST_DOTS = 400;
const DOT_ROOM = 16; // pixels between vertices, on an average, where each has a dot
const MOST_ARROWS = 80;
const ARROW_ROOM = 46; // pixels of an edge that has an arrow

/**
 * The box whose parts are drawn.
 * @param {Frame} frame
 * @returns {import('./box.js').Box}
 */
export function drawnBox(frame) {
  return enlarged(frame.box, MARGIN / frame.scale);
}

/**
 * @param {Pick<Shape, 'lines'>} shape
 * @param {Frame} frame
 * @returns {string}
 */
export function pathData(shape, frame) {
  const box = drawnBox(frame);
  let data = '';
  for (const line of shape.lines) {
    for (const piece of clip(line, box)) {
      const first = 'first' in piece ? piece.first : 0;
      const count = 'count' in piece ? piece.count : piece.xs.length;
      data += pieceData(piece, first, count, frame);
    }
  }
  return data;
}

/**
 * @param {{xs: ArrayLike<number>, ys: ArrayLike<number>, closed: boolean}} piece
 * @param {number} first
 * @param {number} count
 * @param {Frame} frame
 * @returns {string}
 */
function pieceData({ xs, ys, closed }, first, count, frame) {
  const last = first + count - 1;
  let left = toLeft(frame, xs[first]), top = toTop(frame, ys[first]);
  let data = `M${pixels(left)} ${pixels(top)}`;
  for (let k = first + 1; k <= last; k += 1) {
    const x = toLeft(frame, xs[k]), y = toTop(frame, ys[k]);
    if (k < last && Math.abs(x - left) < LEAST_STEP && Math.abs(y - top) < LEAST_STEP) continue;
    [left, top] = [x, y];
    data += `L${pixels(x)} ${pixels(y)}`;
  }
  if (closed) return `${data}Z`;
  return count === 1 ? `${data}h0` : data;
}

/**
 * Dots at the vertices of a shape, or nothing where they are too close to each other.
 * @param {Shape} shape
 * @param {Frame} frame
 * @returns {string}
 */
export function dotsData(shape, frame) {
  let data = '', count = 0, length = 0;
  for (const { xs, ys, first, count: vertices, bounds } of shape.lines) {
    if (!meets(bounds, frame.box)) continue;
    for (let k = first; k < first + vertices && count <= MOST_DOTS; k += 1) {
      if (!holds(frame.box, xs[k], ys[k])) continue;
      const next = k + 1 === first + vertices ? first : k + 1;
      count += 1;
      length += Math.min(Math.hypot(xs[next] - xs[k], ys[next] - ys[k]) * frame.scale, 4 * DOT_ROOM);
      data += `M${pixels(toLeft(frame, xs[k]))} ${pixels(toTop(frame, ys[k]))}h0`;
    }
  }
  return count <= MOST_DOTS && length >= count * DOT_ROOM ? data : '';
}

/**
 * Arrows in the middle of the edges of a shape that have room for one.
 * @param {Shape} shape
 * @param {Frame} frame
 * @returns {string}
 */
export function arrowsData(shape, frame) {
  let data = '', count = 0;
  for (const line of shape.lines) {
    const edges = line.closed ? line.count : line.count - 1;
    for (let k = 0; k < edges && count < MOST_ARROWS; k += 1) {
      const arrow = arrowOn(line, line.first + k, line.first + ((k + 1) % line.count), frame);
      if (arrow === '') continue;
      data += arrow;
      count += 1;
    }
  }
  return data;
}

/**
 * @param {Line} line
 * @param {number} from
 * @param {number} to
 * @param {Frame} frame
 * @returns {string}
 */
function arrowOn({ xs, ys }, from, to, frame) {
  const dx = (xs[to] - xs[from]) * frame.scale, dy = (ys[to] - ys[from]) * frame.scale;
  const length = Math.hypot(dx, dy);
  const middleX = (xs[from] + xs[to]) / 2, middleY = (ys[from] + ys[to]) / 2;
  if (length < ARROW_ROOM || !holds(frame.box, middleX, middleY)) return '';
  const ux = dx / length, uy = dy / length;
  const x = toLeft(frame, middleX), y = toTop(frame, middleY);
  /**
   * @param {number} along
   * @param {number} across
   */
  const place = (along, across) => `${pixels(x + along * ux - across * uy)} ${pixels(y + along * uy + across * ux)}`;
  return `M${place(6, 0)}L${place(-4, 4.5)}L${place(-1.5, 0)}L${place(-4, -4.5)}Z`;
}
