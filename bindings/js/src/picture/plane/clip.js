// Lines and rings cut to a box. SVG draws with floats of 24 bits, so that what is far outside would move what is inside.

import { isWithin, meets } from './box.js';

/** @typedef {import('./box.js').Box} Box */
/**
 * Positions that follow one another, from `first` on, `count` of them, with the box that holds them.
 * @typedef {{xs: ArrayLike<number>, ys: ArrayLike<number>, first: number, count: number, closed: boolean, bounds: Box}} Line
 */
/** @typedef {{xs: number[], ys: number[], closed: boolean}} Piece */

/**
 * The pieces of a line in a box. What is outside may be cut off or led along the box's border.
 * @param {Line} line
 * @param {Box} box
 * @returns {(Line|Piece)[]}
 */
export function clip(line, box) {
  if (isWithin(line.bounds, box)) return [line];
  if (!meets(line.bounds, box)) return [];
  return line.closed ? clipRing(line, box) : clipOpen(line, box);
}

/**
 * @param {Line} line
 * @param {Box} box
 * @returns {Piece[]}
 */
function clipRing(line, box) {
  let xs = copyOf(line.xs, line), ys = copyOf(line.ys, line);
  ({ along: xs, across: ys } = cutAtLeast({ along: xs, across: ys }, box.left));
  ({ along: xs, across: ys } = cutAtMost({ along: xs, across: ys }, box.right));
  ({ along: ys, across: xs } = cutAtLeast({ along: ys, across: xs }, box.top));
  ({ along: ys, across: xs } = cutAtMost({ along: ys, across: xs }, box.bottom));
  return xs.length ? [{ xs, ys, closed: true }] : [];
}

/**
 * @param {ArrayLike<number>} values
 * @param {Line} line
 * @returns {number[]}
 */
function copyOf(values, { first, count }) {
  return Array.prototype.slice.call(values, first, first + count);
}

/** @typedef {{along: number[], across: number[]}} Cut a ring's coordinates, those that are compared and the others */

/**
 * The part of a ring where the coordinate is at least the limit.
 * @param {Cut} ring
 * @param {number} limit
 * @returns {Cut}
 */
function cutAtLeast({ along, across }, limit) {
  const cut = /** @type {Cut} */ ({ along: [], across: [] });
  let before = along.length - 1;
  for (let k = 0; k < along.length; before = k, k += 1) {
    if ((along[k] >= limit) !== (along[before] >= limit)) {
      cut.along.push(limit);
      cut.across.push(across[before] + (across[k] - across[before]) * ((limit - along[before]) / (along[k] - along[before])));
    }
    if (along[k] >= limit) {
      cut.along.push(along[k]);
      cut.across.push(across[k]);
    }
  }
  return cut;
}

/**
 * The part of a ring where the coordinate is at most the limit.
 * @param {Cut} ring
 * @param {number} limit
 * @returns {Cut}
 */
function cutAtMost({ along, across }, limit) {
  const mirrored = cutAtLeast({ along: along.map((value) => -value), across }, -limit);
  return { along: mirrored.along.map((value) => -value), across: mirrored.across };
}

/**
 * @param {Line} line
 * @param {Box} box
 * @returns {Piece[]}
 */
function clipOpen({ xs, ys, first, count }, box) {
  const pieces = /** @type {Piece[]} */ ([]);
  if (count === 1) return [{ xs: [xs[first]], ys: [ys[first]], closed: false }];
  let isOpen = false;
  for (let k = first; k + 1 < first + count; k += 1) {
    const part = clipSegment(xs[k], ys[k], xs[k + 1], ys[k + 1], box);
    if (part === null) isOpen = false;
    else {
      if (!isOpen) pieces.push({ xs: [part.fromX], ys: [part.fromY], closed: false });
      pieces[pieces.length - 1].xs.push(part.toX);
      pieces[pieces.length - 1].ys.push(part.toY);
      isOpen = part.reachesEnd;
    }
  }
  return pieces;
}

/**
 * The part of a segment in a box, or null.
 * @param {number} ax
 * @param {number} ay
 * @param {number} bx
 * @param {number} by
 * @param {Box} box
 * @returns {{fromX: number, fromY: number, toX: number, toY: number, reachesEnd: boolean}|null}
 */
export function clipSegment(ax, ay, bx, by, box) {
  const dx = bx - ax, dy = by - ay;
  let begin = 0, end = 1;
  const sides = [[-dx, ax - box.left], [dx, box.right - ax], [-dy, ay - box.top], [dy, box.bottom - ay]];
  for (const [direction, distance] of sides) {
    if (direction === 0 && distance < 0) return null;
    if (direction < 0) begin = Math.max(begin, distance / direction);
    if (direction > 0) end = Math.min(end, distance / direction);
  }
  if (begin > end) return null;
  return {
    fromX: begin === 0 ? ax : ax + begin * dx, fromY: begin === 0 ? ay : ay + begin * dy,
    toX: end === 1 ? bx : ax + end * dx, toY: end === 1 ? by : ay + end * dy, reachesEnd: end === 1,
  };
}
