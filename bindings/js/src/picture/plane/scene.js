// What a picture of the plane shows: lines, rings, marks and labels, at their places in the tile.

import { emptyBox, union } from './box.js';

/** @typedef {import('./box.js').Box} Box */
/** @typedef {import('./clip.js').Line} Line */
/** @typedef {import('../../tile/commands.js').Figure} Figure */
/** @typedef {Record<string, string|number>} Attributes */
/**
 * Lines or rings that are drawn as one element. With `arrows` their direction is shown where there is room, with `dots` their
 * vertices.
 * @typedef {object} Shape
 * @property {'area'|'line'} kind areas are drawn under all lines
 * @property {string} style names of styles, with spaces between them
 * @property {Attributes} attributes
 * @property {Line[]} lines
 * @property {Box} bounds
 * @property {boolean} arrows
 * @property {boolean} dots
 * @property {Line[][]} [within] polygons: only what is in one of them is drawn of an area
 */
/**
 * A mark of constant size at a position.
 * @typedef {object} Mark
 * @property {'mark'} kind
 * @property {string} style
 * @property {Attributes} attributes
 * @property {'target'|'square'|'diamond'} symbol
 * @property {number} x
 * @property {number} y
 */
/**
 * A text at a position: at the end of an edge that comes `from` somewhere; or, with `to`, beside the edge that goes there. It belongs
 * to something of a size in units of the tile, and is left out where that is small in the drawing.
 * @typedef {object} Label
 * @property {'label'} kind
 * @property {string} style
 * @property {string} text
 * @property {number} x
 * @property {number} y
 * @property {{x: number, y: number}|null} from
 * @property {{x: number, y: number}|null} to
 * @property {number} size
 */
/**
 * Areas are drawn first, then lines, marks and labels; each of them in the order given.
 * @typedef {Shape|Mark|Label} Item
 */

/**
 * @param {string} style
 * @param {Attributes} attributes
 * @param {Line[]} lines
 * @param {{arrows?: boolean, dots?: boolean}} [details]
 * @returns {Shape}
 */
export function shape(style, attributes, lines, details = {}) {
  const bounds = lines.reduce((all, line) => union(all, line.bounds), emptyBox());
  return { kind: 'line', style, attributes, lines, bounds, arrows: false, dots: false, ...details };
}

/**
 * The area of rings, by the rule of an odd number of edges.
 * @param {string} style
 * @param {Attributes} attributes
 * @param {Line[]} lines
 * @returns {Shape}
 */
export function area(style, attributes, lines) {
  return { ...shape(style, attributes, lines), kind: 'area' };
}

/**
 * @param {Item} item
 * @returns {item is Shape}
 */
export function isShape(item) {
  return item.kind === 'area' || item.kind === 'line';
}

/**
 * @param {Mark['symbol']} symbol
 * @param {string} style
 * @param {Attributes} attributes
 * @param {{x: number, y: number}} position
 * @returns {Mark}
 */
export function mark(symbol, style, attributes, { x, y }) {
  return { kind: 'mark', style, attributes, symbol, x, y };
}

/**
 * @param {string} style
 * @param {string} text
 * @param {{x: number, y: number}} position
 * @param {Partial<Pick<Label, 'from'|'to'|'size'>>} [of]
 * @returns {Label}
 */
export function label(style, text, { x, y }, of = {}) {
  return { kind: 'label', style, text, x, y, from: null, to: null, size: Infinity, ...of };
}

/**
 * @param {ArrayLike<number>} xs
 * @param {ArrayLike<number>} ys
 * @param {number} first
 * @param {number} count
 * @param {boolean} closed
 * @returns {Line}
 */
export function line(xs, ys, first, count, closed) {
  const bounds = emptyBox();
  for (let k = first; k < first + count; k += 1) {
    if (xs[k] < bounds.left) bounds.left = xs[k];
    if (xs[k] > bounds.right) bounds.right = xs[k];
    if (ys[k] < bounds.top) bounds.top = ys[k];
    if (ys[k] > bounds.bottom) bounds.bottom = ys[k];
  }
  return { xs, ys, first, count, closed, bounds };
}

/**
 * A path of a figure; `closed` overrides whether it is.
 * @param {Figure} figure
 * @param {number} path
 * @param {boolean} [closed]
 * @returns {Line}
 */
export function lineOf(figure, path, closed = figure.paths[path].closed) {
  const { first, count } = figure.paths[path];
  return line(figure.xs, figure.ys, first, count, closed);
}

/**
 * @param {{x: number, y: number}} from
 * @param {{x: number, y: number}} to
 * @returns {Line}
 */
export function segment(from, to) {
  return line([from.x, to.x], [from.y, to.y], 0, 2, false);
}
