// The edges of a long line that are near a place.

import { meets } from './box.js';
import { line } from './scene.js';

/** @typedef {import('./box.js').Box} Box */
/** @typedef {import('./clip.js').Line} Line */

/**
 * The runs of edges that may meet a box, as open lines.
 * @param {Line} whole
 * @param {Box} box
 * @returns {Line[]}
 */
export function near({ xs, ys, first, count, closed }, box) {
  const lines = /** @type {Line[]} */ ([]), last = first + count - 1;
  let begin = -1;
  for (let k = first; k < last; k += 1) {
    const isNear = meets(box, edgeBox(xs[k], ys[k], xs[k + 1], ys[k + 1]));
    if (isNear && begin < 0) begin = k;
    if (!isNear && begin >= 0) lines.push(line(xs, ys, begin, k - begin + 1, false));
    if (!isNear) begin = -1;
  }
  if (begin >= 0) lines.push(line(xs, ys, begin, last - begin + 1, false));
  const closing = line([xs[last], xs[first]], [ys[last], ys[first]], 0, 2, false);
  return closed && meets(box, closing.bounds) ? [...lines, closing] : lines;
}

/**
 * @param {number} ax
 * @param {number} ay
 * @param {number} bx
 * @param {number} by
 * @returns {Box}
 */
function edgeBox(ax, ay, bx, by) {
  return { left: Math.min(ax, bx), top: Math.min(ay, by), right: Math.max(ax, bx), bottom: Math.max(ay, by) };
}
