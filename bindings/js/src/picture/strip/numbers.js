// Rows of numbers of a list, each with its index and what it means.

import { cut } from '../words.js';
import { tree } from '../tree.js';

/** @typedef {import('../tree.js').Tree} Tree */
/**
 * @typedef {object} Cell
 * @property {number} index
 * @property {string} number
 * @property {string} text
 * @property {boolean} isFault
 * @property {boolean} isSecond named beside the fault
 * @property {boolean} isFaint after the fault
 * @property {boolean} isFirst begins a group: a command, or the key of a tag
 */

const HEIGHT = 46, GAP = 6, ROW = 74, TOP = 46, SIDE = 12;
const LETTER = 6.8, DIGIT = 8.2; // pixels, about
const LEAST_WIDTH = 64;
const LONGEST = 24; // letters in a cell

/**
 * @param {Cell[]} cells
 * @param {string} title
 * @returns {import('../types.js').Strip}
 */
export function numberStrip(cells, title) {
  const widths = cells.map(({ number, text }) => Math.max(number.length * DIGIT, cut(text, LONGEST).length * LETTER) + 14);
  const widest = Math.max(LEAST_WIDTH, ...widths);
  return (width) => {
    const step = Math.min(widest + GAP, width - 2 * SIDE);
    const columns = evenly(Math.max(1, Math.floor((width - 2 * SIDE + GAP) / step)));
    const rows = Math.ceil(cells.length / columns);
    const nodes = cells.map((cell, k) => cellNode(cell, SIDE + (k % columns) * step, TOP + Math.floor(k / columns) * ROW, step - GAP));
    const heading = tree('text', { class: 'picture-words-faint', x: SIDE, y: 18 }, [title]);
    return { height: TOP + (rows - 1) * ROW + HEIGHT + SIDE, nodes: [heading, ...nodes] };
  };
}

/**
 * An even number, so that a key and its value, or an x and its y, are mostly in one row.
 * @param {number} count
 * @returns {number}
 */
function evenly(count) {
  return count > 2 ? count - (count % 2) : count;
}

/**
 * @param {Cell} cell
 * @param {number} x
 * @param {number} y
 * @param {number} width
 * @returns {Tree}
 */
function cellNode(cell, x, y, width) {
  const style = cell.isFault ? 'cell-fault' : cell.isSecond ? 'cell-second' : cell.isFirst ? 'cell-first' : 'cell';
  const faint = cell.isFaint ? '-faint' : '';
  const middle = x + width / 2;
  return tree('g', { 'data-role': cell.isFault ? 'fault-number' : 'number', 'data-index': cell.index }, [
    tree('text', { class: `picture-words-${cell.isFault ? 'fault' : 'faint'}`, x: middle, y: y - 5, 'text-anchor': 'middle' }, [String(cell.index)]),
    tree('rect', { class: `picture-${style}`, x, y, width, height: HEIGHT, rx: 4 }),
    tree('text', { class: `picture-code${faint}`, x: middle, y: y + 19, 'text-anchor': 'middle' }, [cell.number]),
    tree('text', { class: `picture-words${faint}`, x: middle, y: y + 37, 'text-anchor': 'middle' }, [cut(cell.text, LONGEST)]),
  ]);
}
