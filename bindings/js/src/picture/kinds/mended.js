// The picture of a feature before and after it was mended: what was cut away, what was added, and what stayed.

import { boxAround, emptyBox, extentBox, isEmpty, sizeOf, union, withMargin } from '../plane/box.js';
import { label, lineOf, shape } from '../plane/scene.js';
import { near as nearLines } from '../plane/near.js';
import { counted, positionText } from '../words.js';
import { boundsOf, nearBox, readRings } from './polygons.js';

/** @typedef {import('../types.js').Picture} Picture */
/** @typedef {import('../types.js').Box} Box */
/** @typedef {import('../types.js').FeatureOfFault} FeatureOfFault */
/** @typedef {import('../types.js').Place} Place */
/** @typedef {import('../plane/clip.js').Line} Line */
/** @typedef {import('../plane/scene.js').Item} Item */
/** @typedef {import('./polygons.js').Feature} Feature */
/** @typedef {{x: number, y: number}} Position */

const CLOSE_HALF = 12; // half of the size of a close view, in units of the grid
const SMALL = 0.5; // a close view is worth it where it is at most this part of the whole
const POLYGON = 3;
/** @type {Feature} of a feature that was left out */
const NOTHING = readRings([], POLYGON);

/**
 * @param {FeatureOfFault} of the feature before
 * @param {import('../types.js').Feature|null} after null where it was left out
 * @param {Position|null} [at] the point of the fault, where it has one
 * @returns {Picture}
 */
export function pictureOfMended({ feature, extent }, after, at = null) {
  const old = readRings(feature.geometry, feature.type), made = after ? readRings(after.geometry, after.type) : NOTHING;
  const others = { gone: positionsBeside(old, made), come: positionsBeside(made, old) };
  const bounds = union(boundsOfAll(old), boundsOfAll(made)), place = nearestTo(at, [...others.gone, ...others.come]);
  const whole = isEmpty(bounds) ? withMargin(extentBox(extent)) : withMargin(bounds);
  const close = place && boxAround(place.x, place.y, CLOSE_HALF);
  const near = close && (nearBox(old.figure, close) ?? nearBox(made.figure, close));
  return {
    kind: 'mended', title: after ? 'The feature before and after' : 'The feature that was left out',
    words: (after ? 'What was cut away is red, and what was added is blue.' : "It couldn't be mended, so all of it is red.")
      + (near ? ' The feature is large, and only what is near this place is drawn.' : ''),
    places: placesOf(old, made, others),
    plane: { extent, items: [...(near ? [] : areas(old, made)), ...outlines(old, 'cut', near), ...outlines(made, 'added', near), ...labels(others, close)] },
    strip: null, box: near ?? whole, close: close && sizeOf(close) <= SMALL * sizeOf(whole) ? close : null, tile: withMargin(extentBox(extent)),
  };
}

/**
 * What was filled before, over it what is filled now, and over both what was and is filled.
 * @param {Feature} old
 * @param {Feature} made
 * @returns {Item[]}
 */
function areas(old, made) {
  const before = polygonsOf(old), after = polygonsOf(made);
  const filled = (/** @type {string} */ style, /** @type {Line[][]} */ polygons, /** @type {Line[][]} */ within) => polygons
    .map((lines) => ({ ...shape(`filled ${style}`, { 'data-role': style }, lines), kind: /** @type {'area'} */ ('area'), within }));
  return [...filled('cut', before, []), ...filled('added', after, []), ...(before.length ? filled('kept', after, before) : [])];
}

/**
 * The rings of each polygon; those before the first exterior by themselves.
 * @param {Feature} of
 * @returns {Line[][]}
 */
function polygonsOf({ figure, groups }) {
  const alone = groups.polygonOfRing.flatMap((polygon, ring) => (polygon < 0 ? [[ring]] : []));
  return [...alone, ...groups.polygons.map(({ rings }) => rings)].map((rings) => rings.map((ring) => lineOf(figure, ring, true)));
}

/**
 * @param {Feature} of
 * @param {'cut'|'added'} style
 * @param {Box|null} near
 * @returns {Item[]}
 */
function outlines({ figure }, style, near) {
  const lines = figure.paths.map((_, ring) => lineOf(figure, ring, true)).flatMap((line) => (near ? nearLines(line, near) : [line]));
  const role = { 'data-role': style === 'cut' ? 'before' : 'after' };
  return lines.length ? [shape(`${style}-edge`, role, lines, { dots: style === 'added' })] : [];
}

/**
 * The positions of a feature that another one doesn't have, in order and each once.
 * @param {Feature} of
 * @param {Feature} other
 * @returns {Position[]}
 */
function positionsBeside({ figure }, other) {
  const known = new Set(), found = [];
  for (let k = 0; k < other.figure.count; k += 1) known.add(keyOf(other.figure.xs[k], other.figure.ys[k]));
  for (let k = 0; k < figure.count; k += 1) {
    const key = keyOf(figure.xs[k], figure.ys[k]);
    if (known.has(key)) continue;
    known.add(key);
    found.push({ x: figure.xs[k], y: figure.ys[k] });
  }
  return found;
}

/**
 * A text for each position, since a double has no room for two coordinates.
 * @param {number} x
 * @param {number} y
 */
function keyOf(x, y) {
  return `${x} ${y}`;
}

/** @param {Feature} of */
function boundsOfAll({ figure }) {
  return figure.paths.length ? boundsOf(figure, figure.paths.map((_, ring) => ring)) : emptyBox();
}

/**
 * The position that is nearest to a point; the first one without a point.
 * @param {Position|null} at
 * @param {Position[]} positions
 * @returns {Position|null}
 */
function nearestTo(at, positions) {
  if (!at) return positions[0] ?? null;
  const distance = (/** @type {Position} */ { x, y }) => Math.hypot(x - at.x, y - at.y);
  return positions.reduce((best, it) => (best && distance(best) <= distance(it) ? best : it), /** @type {Position|null} */ (null)) ?? at;
}

/**
 * Labels of the positions of a close view.
 * @param {{gone: Position[], come: Position[]}} others
 * @param {Box|null} close
 * @returns {Item[]}
 */
function labels({ gone, come }, close) {
  if (!close) return [];
  const isSeen = (/** @type {Position} */ { x, y }) => close.left <= x && x <= close.right && close.top <= y && y <= close.bottom;
  const of = (/** @type {Position[]} */ positions, /** @type {string} */ style) => positions.filter(isSeen).slice(0, 12)
    .map((it) => label(style, positionText(it), it, { size: CLOSE_HALF }));
  return [...of(gone, 'label-first'), ...of(come, 'label-second')];
}

/**
 * @param {Feature} old
 * @param {Feature} made
 * @param {{gone: Position[], come: Position[]}} others
 * @returns {Place[]}
 */
function placesOf(old, made, { gone, come }) {
  return [
    { name: 'before', text: measureText(old), sample: 'cut-edge' },
    { name: 'after', text: made === NOTHING ? 'nothing' : measureText(made), sample: 'added-edge' },
    { name: 'positions that went', text: String(gone.length) },
    { name: 'positions that came', text: String(come.length) },
  ];
}

/** @param {Feature} of */
function measureText({ figure, groups }) {
  const area = groups.areas.reduce((sum, it) => sum + it, 0n);
  const polygons = counted(groups.polygons.length, 'polygon', 'polygons'), rings = counted(figure.paths.length, 'ring', 'rings');
  return `${polygons}, ${rings}, ${counted(figure.count, 'vertex', 'vertices')}, doubled area ${area}`;
}
