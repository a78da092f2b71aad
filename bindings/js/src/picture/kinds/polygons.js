// The rings and polygons of a feature, as parts of a scene.

import { followCommands } from '../../tile/commands.js';
import { groupRings } from '../../tile/rings.js';
import { emptyBox, enlarged, sizeOf, union, withMargin } from '../plane/box.js';
import { near as nearLines } from '../plane/near.js';
import { area, label, lineOf, shape } from '../plane/scene.js';

/** @typedef {import('../plane/box.js').Box} Box */
/** @typedef {import('../plane/scene.js').Shape} Shape */
/** @typedef {import('../plane/scene.js').Label} Label */
/** @typedef {import('../plane/scene.js').Attributes} Attributes */
/** @typedef {import('../../tile/commands.js').Figure} Figure */
/** @typedef {{figure: Figure, groups: ReturnType<typeof groupRings>}} Feature */
/**
 * A feature's rings. With `near`, only what is in that box is drawn.
 * @typedef {Feature & {near: Box|null}} Rings
 */

const MOST_VERTICES = 200000; // a feature with more is drawn near the fault alone
const MOST_RINGS = 1500; // of more rings outlines are drawn as one element
const DETAILS = { arrows: true, dots: true };

/**
 * @param {number[]} geometry
 * @param {number} type
 * @returns {Feature}
 */
export function readRings(geometry, type) {
  const figure = followCommands(geometry, type);
  return { figure, groups: groupRings(figure) };
}

/**
 * Where to draw alone, where the feature is large.
 * @param {Figure} figure
 * @param {Box} close
 * @returns {Box|null}
 */
export function nearBox(figure, close) {
  return figure.count > MOST_VERTICES ? enlarged(close, 2 * sizeOf(close)) : null;
}

/**
 * @param {Figure} figure
 * @param {number[]} rings
 * @returns {Box}
 */
export function boundsOf(figure, rings) {
  return rings.reduce((all, ring) => union(all, lineOf(figure, ring).bounds), emptyBox());
}

/**
 * The box of a picture: that of these rings, or what is drawn of a large feature.
 * @param {Rings} of
 * @param {number[]} rings
 * @returns {Box}
 */
export function wholeBox({ figure, near }, rings) {
  return near ?? withMargin(boundsOf(figure, rings));
}

/**
 * The rings that are not among some, faintly.
 * @param {Rings} of
 * @param {number[]} rings
 * @returns {Shape[]}
 */
export function otherRings(of, rings) {
  const named = new Set(rings);
  const others = of.figure.paths.map((_, ring) => ring).filter((ring) => !named.has(ring));
  return [areaShape(of, others, 'other'), ...outlines(of, others, 'other', { 'data-role': 'other-ring' }, {})];
}

/**
 * The area of some rings of a polygon and their outlines.
 * @param {Rings} of
 * @param {number[]} rings
 * @param {string} style
 * @param {Attributes} attributes of each outline
 * @returns {Shape[]}
 */
export function ringsShapes(of, rings, style, attributes) {
  return [areaShape(of, rings, style), ...outlines(of, rings, style, attributes, DETAILS)];
}

/**
 * @param {Rings} of
 * @param {number[]} rings
 * @param {string} style
 * @returns {Shape}
 */
function areaShape({ figure, near }, rings, style) {
  return area(style, {}, near ? [] : rings.map((ring) => lineOf(figure, ring, true)));
}

/**
 * @param {Rings} of
 * @param {number[]} rings
 * @param {string} style
 * @param {Attributes} attributes
 * @param {{arrows?: boolean, dots?: boolean}} details
 * @returns {Shape[]}
 */
function outlines({ figure, near }, rings, style, attributes, details) {
  const lines = rings.map((ring) => lineOf(figure, ring, true)).map((line) => (near ? nearLines(line, near) : [line]));
  if (rings.length > MOST_RINGS) return [shape(style, attributes, lines.flat(), details)];
  return rings.map((ring, k) => shape(style, { ...attributes, 'data-ring': ring }, lines[k], details));
}

/**
 * A label at the uppermost vertex of a ring.
 * @param {Rings} of
 * @param {number} ring
 * @param {string} style
 * @param {string} text
 * @returns {Label}
 */
export function ringLabel({ figure }, ring, style, text) {
  const { first, count } = figure.paths[ring];
  let uppermost = first;
  for (let k = first; k < first + count; k += 1) if (figure.ys[k] < figure.ys[uppermost]) uppermost = k;
  return label(style, text, { x: figure.xs[uppermost], y: figure.ys[uppermost] }, { size: sizeOf(boundsOf(figure, [ring])) });
}
