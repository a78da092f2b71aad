// The grid of whole coordinates, where it is close enough, and the rulers at the edges of a drawing.

import { tree } from '../tree.js';
import { pixels, toLeft, toTop } from './frame.js';

/** @typedef {import('./frame.js').Frame} Frame */
/** @typedef {import('../tree.js').Tree} Tree */

const LEAST_UNIT = 12; // pixels of a unit whose grid is drawn
const LABEL_ROOM = 70; // pixels between two labels

/**
 * The lines of whole coordinates, and those of every tenth.
 * @param {Frame} frame
 * @returns {Tree[]}
 */
export function gridOf(frame) {
  if (frame.scale < LEAST_UNIT) return [];
  return [tree('path', { class: 'picture-grid', 'data-role': 'grid', d: gridLines(frame, 1) }),
    tree('path', { class: 'picture-grid-ten', 'data-role': 'grid', d: gridLines(frame, 10) })];
}

/**
 * @param {Frame} frame
 * @param {number} step
 * @returns {string}
 */
function gridLines(frame, step) {
  const upright = multiples(frame.box.left, frame.box.right, step).map((x) => `M${pixels(toLeft(frame, x))} 0V${frame.height}`);
  const level = multiples(frame.box.top, frame.box.bottom, step).map((y) => `M0 ${pixels(toTop(frame, y))}H${frame.width}`);
  return [...upright, ...level].join('');
}

/**
 * The multiples of a step in a range.
 * @param {number} from
 * @param {number} to
 * @param {number} step
 * @returns {number[]}
 */
function multiples(from, to, step) {
  const first = Math.ceil(from / step), count = Math.floor(to / step) - first + 1;
  return Array.from({ length: Math.max(count, 0) }, (_, k) => (first + k) * step + 0);
}

/**
 * Some coordinates at the lower and the left edge.
 * @param {Frame} frame
 * @returns {Tree[]}
 */
export function rulersOf(frame) {
  const greatest = Math.max(...[frame.box.left, frame.box.right, frame.box.top, frame.box.bottom].map(Math.abs));
  const room = Math.max(LABEL_ROOM, 8 * String(Math.round(greatest)).length + 24);
  const step = labelStep(room / frame.scale);
  const xs = multiples(frame.box.left, frame.box.right, step).filter((x) => toLeft(frame, x) > 40 && toLeft(frame, x) < frame.width - 30);
  const ys = multiples(frame.box.top, frame.box.bottom, step).filter((y) => toTop(frame, y) > 14 && toTop(frame, y) < frame.height - 24);
  return [
    tree('path', { class: 'picture-tick', d: [...xs.map((x) => `M${pixels(toLeft(frame, x))} ${frame.height}v-6`),
      ...ys.map((y) => `M0 ${pixels(toTop(frame, y))}h6`)].join('') }),
    ...xs.map((x) => rulerText(x, toLeft(frame, x), frame.height - 9, 'middle')),
    ...ys.map((y) => rulerText(y, 9, toTop(frame, y) + 4, 'start')),
  ];
}

/**
 * @param {number} value
 * @param {number} x
 * @param {number} y
 * @param {string} anchor
 * @returns {Tree}
 */
function rulerText(value, x, y, anchor) {
  return tree('text', { class: 'picture-ruler', x: pixels(x), y: pixels(y), 'text-anchor': anchor }, [String(value)]);
}

/**
 * The least whole 1, 2 or 5 with zeros that is at least so much.
 * @param {number} least
 * @returns {number}
 */
export function labelStep(least) {
  if (least <= 1) return 1;
  const ten = 10 ** Math.floor(Math.log10(least));
  return [1, 2, 5, 10].map((factor) => factor * ten).find((step) => step >= least) ?? 10 * ten;
}
