// The picture of two edges that meet (504).

import { edgeOf } from '../../tile/rings.js';
import { decimalText, doubleOf, exactText, fraction, fractionText } from '../fraction.js';
import { boxAround, extentBox, sizeOf, withMargin } from '../plane/box.js';
import { label, mark, segment, shape } from '../plane/scene.js';
import { boundsOf, nearBox, otherRings, readRings, ringsShapes, wholeBox } from './polygons.js';
import { edgeText, positionText, ringPlaces } from '../words.js';

/** @typedef {import('../types.js').Picture} Picture */
/** @typedef {import('../types.js').FeatureOfFault} FeatureOfFault */
/** @typedef {import('../../tile/rings.js').Edge} Edge */
/** @typedef {import('../plane/scene.js').Item} Item */
/** @typedef {import('../fraction.js').Fraction} Fraction */
/** @typedef {import('./polygons.js').Rings} Rings */
/** @typedef {import('./polygons.js').Feature} Feature */
/** @typedef {{x: Fraction, y: Fraction}} Point */
/** @typedef {{edge: number, ring: number}} EdgeName */
/** @typedef {{first: EdgeName, second: EdgeName, polygon: number, x: string, y: string, w: string}} Meeting */
/**
 * What is shown: the two edges, their common point, the polygon of each, and the rings of these polygons.
 * @typedef {{first: Edge, second: Edge, point: Point, polygon: number, other: number, shown: number[]}} Parts
 */

const MOST_HALF = 32; // half of the size of a close view, where the edges part soon
const PARALLEL = 0.05; // the sine of an angle that can hardly be seen
const LONGEST_FRACTION = 16; // letters
const LABEL_DIGITS = 3;

/**
 * @param {Meeting} fault
 * @param {FeatureOfFault} of
 * @returns {Picture|null}
 */
export function pictureOfMeeting(fault, { feature, extent }) {
  const rings = readRings(feature.geometry, feature.type);
  const parts = partsOf(fault, rings);
  if (!parts) return null;
  const { first, second, point, shown } = parts;
  const close = boxAround(doubleOf(point.x), doubleOf(point.y), closeHalf(first, second, sizeOf(boundsOf(rings.figure, shown))));
  const all = { ...rings, near: nearBox(rings.figure, close) };
  return {
    kind: 'meeting', title: 'Two edges that meet',
    words: `Edge ${first.edge} of ring ${first.ring} and edge ${second.edge} of ring ${second.ring} have the point ${pointText(point)} in common`
      + `${parts.other === fault.polygon ? '' : `, of polygons ${parts.other} and ${fault.polygon}`}. ${howTheyMeet(parts)}`
      + (all.near ? ' The feature is large, and only what is near this point is drawn.' : ''),
    places: placesOf(all, parts),
    plane: { extent, items: itemsOf(all, parts) },
    strip: null, box: wholeBox(all, shown), close, tile: withMargin(extentBox(extent)),
  };
}

/**
 * What the fault names, or null where the feature doesn't have it.
 * @param {Meeting} fault
 * @param {Feature} rings
 * @returns {Parts|null}
 */
function partsOf({ first: a, second: b, polygon, x, y, w }, { figure, groups }) {
  const first = edgeOf(figure, a.ring, a.edge), second = edgeOf(figure, b.ring, b.edge);
  const other = groups.polygonOfRing[a.ring];
  if (!first || !second || !groups.polygons[polygon] || !groups.polygons[other]) return null;
  const own = groups.polygons[polygon].rings;
  return {
    first, second, polygon, other, point: { x: fraction(BigInt(x), BigInt(w)), y: fraction(BigInt(y), BigInt(w)) },
    shown: other === polygon ? own : [...groups.polygons[other].rings, ...own],
  };
}

/**
 * @param {Parts} parts
 * @returns {string}
 */
function howTheyMeet({ first, second, point }) {
  const a = vectorOf(first), b = vectorOf(second);
  const isEnd = (/** @type {Edge} */ { from, to }) => [from, to].some(({ x, y }) => fractionText(point.x) === String(x) && fractionText(point.y) === String(y));
  if (isEnd(first) && isEnd(second)) return 'Both have an end there.';
  if (BigInt(a.x) * BigInt(b.y) === BigInt(a.y) * BigInt(b.x)) return 'Both lie on one line.';
  if (isEnd(first)) return 'The first one has an end there, on the second one.';
  return isEnd(second) ? 'The second one has an end there, on the first one.' : 'They cross there.';
}

/**
 * The point as fractions where they are short, else as decimals.
 * @param {Point} point
 * @param {number} [digits] of the decimals
 * @returns {string}
 */
function pointText({ x, y }, digits) {
  const exact = `(${fractionText(x)}, ${fractionText(y)})`;
  return exact.length <= LONGEST_FRACTION ? exact : `(${decimalText(x, digits)}, ${decimalText(y, digits)})`;
}

/**
 * @param {Rings} rings
 * @param {Parts} parts
 * @returns {Item[]}
 */
function itemsOf(rings, { first, second, point, polygon, other, shown }) {
  const place = { x: doubleOf(point.x), y: doubleOf(point.y) };
  return [
    ...otherRings(rings, shown),
    ...(other === polygon ? [] : polygonShapes(rings, other, 'other-polygon')),
    ...polygonShapes(rings, polygon, 'ring'),
    shape('casing', {}, [segment(first.from, first.to), segment(second.from, second.to)]),
    edgeShape(first, 'first'), edgeShape(second, 'second'),
    mark('target', 'point', { 'data-role': 'point', 'data-x': fractionText(point.x), 'data-y': fractionText(point.y) }, place),
    label('label', pointText(point, LABEL_DIGITS), place),
    edgeLabel(first, 'first'), edgeLabel(second, 'second'),
    ...[first, second].flatMap(endLabels),
  ];
}

/**
 * @param {Rings} rings
 * @param {number} polygon
 * @param {string} role
 * @returns {Item[]}
 */
function polygonShapes(rings, polygon, role) {
  return ringsShapes(rings, rings.groups.polygons[polygon].rings, 'ring', { 'data-role': role, 'data-polygon': polygon });
}

/**
 * @param {Edge} edge
 * @param {'first'|'second'} which
 * @returns {Item}
 */
function edgeShape(edge, which) {
  const attributes = { 'data-role': `${which}-edge`, 'data-ring': edge.ring, 'data-edge': edge.edge,
    'data-from': `${edge.from.x} ${edge.from.y}`, 'data-to': `${edge.to.x} ${edge.to.y}` };
  return shape(`${which}-edge`, attributes, [segment(edge.from, edge.to)], { arrows: true, dots: true });
}

/**
 * @param {Edge} edge
 * @param {'first'|'second'} which
 * @returns {Item}
 */
function edgeLabel(edge, which) {
  return label(`label-${which}`, `ring ${edge.ring}, edge ${edge.edge}`, edge.from, { to: edge.to });
}

/**
 * @param {Edge} edge
 * @returns {Item[]}
 */
function endLabels(edge) {
  const { from, to } = edge, size = vectorOf(edge).length / 2;
  return [label('label-faint', positionText(from), from, { from: to, size }), label('label-faint', positionText(to), to, { from, size })];
}

/**
 * @param {Rings} rings
 * @param {Parts} parts
 * @returns {import('../types.js').Place[]}
 */
function placesOf(rings, { first, second, point, polygon, other, shown }) {
  return [
    { name: 'point', text: `x = ${exactText(point.x)}, y = ${exactText(point.y)}` },
    { name: 'first edge', text: edgeText(first), sample: 'first-edge' },
    { name: 'second edge', text: edgeText(second), sample: 'second-edge' },
    { name: other === polygon ? 'polygon' : 'polygons', text: other === polygon ? String(polygon) : `${other} and ${polygon}` },
    ...ringPlaces(rings, shown, new Set([first.ring, second.ring])),
  ];
}

/**
 * Half of the size of the close view: small enough for the grid, and large enough to see that edges that are nearly parallel part.
 * @param {Edge} first
 * @param {Edge} second
 * @param {number} whole
 * @returns {number}
 */
function closeHalf(first, second, whole) {
  const a = vectorOf(first), b = vectorOf(second);
  const sine = Math.abs(a.x * b.y - a.y * b.x) / (a.length * b.length);
  const wanted = 1.2 * Math.min(a.length, b.length);
  const half = sine < PARALLEL ? wanted : Math.min(wanted, MOST_HALF);
  return Math.max(Math.min(half, whole / 6), 1);
}

/**
 * @param {Edge} edge
 * @returns {{x: number, y: number, length: number}}
 */
function vectorOf({ from, to }) {
  const x = to.x - from.x, y = to.y - from.y;
  return { x, y, length: Math.hypot(x, y) };
}
