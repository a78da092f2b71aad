// The paths of a figure of any type, as parts of a scene.

import { LINESTRING, POINT, POLYGON } from '../../tile/commands.js';
import { emptyBox, union } from '../plane/box.js';
import { near as nearLines } from '../plane/near.js';
import { area, lineOf, shape } from '../plane/scene.js';

/** @typedef {import('../../tile/commands.js').Figure} Figure */
/** @typedef {import('../plane/box.js').Box} Box */
/** @typedef {import('../plane/clip.js').Line} Line */
/** @typedef {import('../plane/scene.js').Shape} Shape */

const MOST_PATHS = 1500; // of more paths outlines are drawn as one element

/**
 * @param {Figure} figure
 * @returns {Box}
 */
export function figureBounds(figure) {
  return figure.paths.reduce((all, _, path) => union(all, lineOf(figure, path).bounds), emptyBox());
}

/**
 * Each path, as far as it goes: rings that are not closed stay open. With `near`, only the edges that are near are drawn.
 * @param {Figure} figure
 * @param {Box|null} [near]
 * @returns {Shape[]}
 */
export function pathShapes(figure, near = null) {
  const lines = figure.paths.map((_, path) => lineOf(figure, path));
  if (figure.type === POINT) return [shape('path-points', { 'data-role': 'path', 'data-path': 0 }, lines.flatMap(pointsOf))];
  const seen = near ? lines.map((line) => nearLines(line, near)) : lines.map((line) => [line]);
  const areas = figure.type === POLYGON && !near ? [area('path', {}, lines.filter(({ closed }) => closed))] : [];
  if (lines.length > MOST_PATHS) return [...areas, shape('path', { 'data-role': 'path' }, seen.flat())];
  const details = { dots: true, arrows: figure.type === LINESTRING || figure.type === POLYGON };
  return [...areas, ...seen.map((parts, path) => shape('path', { 'data-role': 'path', 'data-path': path }, parts, details))];
}

/**
 * The positions of a line, each as a line of its own, which is drawn as a dot.
 * @param {Line} line
 * @returns {Line[]}
 */
function pointsOf({ xs, ys, first, count }) {
  return Array.from({ length: count }, (_, k) => {
    const x = xs[first + k], y = ys[first + k];
    return { xs, ys, first: first + k, count: 1, closed: false, bounds: { left: x, top: y, right: x, bottom: y } };
  });
}
