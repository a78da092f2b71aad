// Marks of constant size at positions.

import { classOf, tree } from '../tree.js';
import { holds } from './box.js';
import { pixels, toLeft, toTop } from './frame.js';
import { drawnBox } from './paths.js';

/** @typedef {import('../tree.js').Tree} Tree */

/**
 * The outlines of the symbols, around (0, 0).
 * @type {Record<import('./scene.js').Mark['symbol'], string>}
 */
const OUTLINES = {
  target: 'M9 0A9 9 0 1 1 -9 0A9 9 0 1 1 9 0ZM-15 0H-9M9 0H15M0 -15V-9M0 9V15',
  square: 'M-8 -8H8V8H-8Z',
  diamond: 'M0 -7L7 0L0 7L-7 0Z',
};

/**
 * @param {import('./scene.js').Mark} mark
 * @param {import('./frame.js').Frame} frame
 * @returns {Tree[]}
 */
export function markOf(mark, frame) {
  if (!holds(drawnBox(frame), mark.x, mark.y)) return [];
  const place = `translate(${pixels(toLeft(frame, mark.x))} ${pixels(toTop(frame, mark.y))})`;
  const outline = OUTLINES[mark.symbol];
  const inner = mark.symbol === 'target' ? [tree('circle', { class: 'picture-target-middle', r: 2 })] : [];
  return [tree('g', { class: classOf(`mark ${mark.style}`), ...mark.attributes, transform: place },
    [tree('path', { class: 'picture-mark-casing', d: outline }), tree('path', { class: 'picture-symbol', d: outline }), ...inner])];
}
