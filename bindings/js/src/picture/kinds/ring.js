// The picture of a ring with a fault of its own (501 to 503).

import { vertexCount, vertexOf } from '../../tile/rings.js';
import { boxAround, extentBox, middleOf, sizeOf, withMargin } from '../plane/box.js';
import { label, mark } from '../plane/scene.js';
import { boundsOf, nearBox, otherRings, readRings, ringsShapes, wholeBox } from './polygons.js';
import { positionText, ringText } from '../words.js';

/** @typedef {import('../types.js').Picture} Picture */
/** @typedef {import('../types.js').FeatureOfFault} FeatureOfFault */
/** @typedef {import('../plane/box.js').Box} Box */
/** @typedef {import('../plane/scene.js').Item} Item */
/** @typedef {import('./polygons.js').Feature} Feature */
/** @typedef {{x: number, y: number}} Position */

/** @type {Record<number, {title: string, says: string}>} */
const KINDS = {
  501: { title: 'A ring that ends where it began', says: 'has its first position as its last one too' },
  502: { title: 'A ring without area', says: 'has no area' },
  503: { title: 'A feature that begins with a hole', says: 'is the first one, and a hole by its winding' },
};
const SMALL = 0.5; // a close view is worth it where it is at most this part of the whole

/**
 * @param {{code: number, ring: number}} fault
 * @param {FeatureOfFault} of
 * @returns {Picture|null}
 */
export function pictureOfRing({ code, ring }, { feature, extent }) {
  const rings = readRings(feature.geometry, feature.type), { figure } = rings;
  const begin = vertexOf(figure, ring, 0);
  if (!begin) return null;
  const last = vertexCount(figure, ring) - 1;
  const end = vertexOf(figure, ring, last) ?? begin;
  const all = figure.paths.map((_, k) => k);
  const close = closeBox(code, rings, ring, begin);
  const drawn = { ...rings, near: nearBox(figure, close) };
  const whole = wholeBox(drawn, all);
  const { title, says } = KINDS[code];
  return {
    kind: 'ring', title, words: `Ring ${ring} ${says}.${code === 501 ? '' : ` Its doubled area is ${rings.groups.areas[ring]}.`}`,
    places: [
      { name: `ring ${ring}`, text: ringText(rings, ring), sample: 'named' },
      { name: 'first position', text: `vertex 0: ${positionText(begin)}` },
      { name: 'last position', text: `vertex ${last}: ${positionText(end)}` },
    ],
    plane: { extent, items: [...otherRings(drawn, [ring]), ...ringsShapes(drawn, [ring], 'named', { 'data-role': 'ring' }),
      ...endMarks(ring, begin, last, end), ...(code === 501 ? [] : [areaLabel(rings, ring)])] },
    strip: null, box: whole, close: sizeOf(close) <= SMALL * sizeOf(whole) ? close : null, tile: withMargin(extentBox(extent)),
  };
}

/**
 * @param {number} code
 * @param {Feature} rings
 * @param {number} ring
 * @param {Position} begin
 * @returns {Box}
 */
function closeBox(code, { figure }, ring, begin) {
  const bounds = boundsOf(figure, [ring]);
  return code === 501 ? boxAround(begin.x, begin.y, Math.max(1, sizeOf(bounds) / 6)) : withMargin(bounds);
}

/**
 * @param {number} ring
 * @param {Position} begin
 * @param {number} last
 * @param {Position} end
 * @returns {Item[]}
 */
function endMarks(ring, begin, last, end) {
  const isOne = begin.x === end.x && begin.y === end.y;
  return [
    mark('square', 'begin', { 'data-role': 'vertex', 'data-ring': ring, 'data-vertex': 0, 'data-x': begin.x, 'data-y': begin.y }, begin),
    mark('diamond', 'last', { 'data-role': 'last-position', 'data-ring': ring, 'data-vertex': last, 'data-x': end.x, 'data-y': end.y }, end),
    label('label', `${isOne ? 'first and last' : 'first'} ${positionText(begin)}`, begin),
    ...(isOne ? [] : [label('label', `last ${positionText(end)}`, end)]),
  ];
}

/**
 * The doubled area, in the middle of the ring's box.
 * @param {Feature} rings
 * @param {number} ring
 * @returns {Item}
 */
function areaLabel({ figure, groups }, ring) {
  return label('label-first', `doubled area ${groups.areas[ring]}`, middleOf(boundsOf(figure, [ring])));
}
