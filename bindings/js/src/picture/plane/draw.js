// A plane's scene as SVG, in pixels: only what is seen is drawn, so that a close view is as exact far from the origin as near it.

import { classOf, tree } from '../tree.js';
import { extentBox, meets } from './box.js';
import { pixels, toLeft, toTop } from './frame.js';
import { gridOf, rulersOf } from './grid.js';
import { labelsOf } from './labels.js';
import { markOf } from './marks.js';
import { arrowsData, dotsData, drawnBox, pathData } from './paths.js';

/** @typedef {import('../tree.js').Tree} Tree */
/** @typedef {import('./frame.js').Frame} Frame */
/** @typedef {import('./scene.js').Item} Item */
/** @typedef {import('./scene.js').Shape} Shape */
/** @typedef {{extent: number, items: Item[]}} Plane */

/**
 * @param {Plane} plane
 * @param {Frame} frame
 * @returns {Tree[]}
 */
export function drawPlane({ extent, items }, frame) {
  const labels = items.flatMap((item) => (item.kind === 'label' ? [item] : []));
  const marks = items.flatMap((item) => (item.kind === 'mark' ? [item] : []));
  return [
    tree('rect', { class: 'picture-outside', x: 0, y: 0, width: frame.width, height: frame.height }),
    ...tileSquare(extent, frame),
    ...gridOf(frame),
    ...drawItems(items, frame),
    ...rulersOf(frame),
    ...labelsOf(labels, marks, frame),
  ];
}

/**
 * @param {number} extent
 * @param {Frame} frame
 * @returns {Tree[]}
 */
function tileSquare(extent, frame) {
  const seen = drawnBox(frame), square = extentBox(extent);
  if (!meets(seen, square)) return [];
  const left = toLeft(frame, Math.max(seen.left, 0)), top = toTop(frame, Math.max(seen.top, 0));
  const right = toLeft(frame, Math.min(seen.right, extent)), bottom = toTop(frame, Math.min(seen.bottom, extent));
  return [tree('rect', { class: 'picture-extent', 'data-role': 'extent', 'data-extent': extent, x: pixels(left), y: pixels(top),
    width: pixels(right - left), height: pixels(bottom - top) })];
}

/**
 * Shapes and marks.
 * @param {Item[]} items
 * @param {Frame} frame
 * @returns {Tree[]}
 */
export function drawItems(items, frame) {
  return ['area', 'line', 'mark'].flatMap((kind) => items.filter((item) => item.kind === kind)).flatMap((item) => drawItem(item, frame));
}

/**
 * @param {Item} item
 * @param {Frame} frame
 * @returns {Tree[]}
 */
function drawItem(item, frame) {
  if (item.kind === 'label') return [];
  if (item.kind === 'mark') return markOf(item, frame);
  return drawShape(item, frame);
}

/**
 * @param {Shape} shape
 * @param {Frame} frame
 * @returns {Tree[]}
 */
function drawShape(shape, frame) {
  if (!meets(shape.bounds, drawnBox(frame))) return [];
  const { kind, style, attributes } = shape;
  const arrows = shape.arrows ? arrowsData(shape, frame) : '', dots = shape.dots ? dotsData(shape, frame) : '';
  const clip = shape.within?.length ? clipOf(shape.within, frame) : null;
  return [
    ...(clip ? [clip] : []),
    tree('path', { class: classOf(`${kind} ${style}`), ...attributes, ...(clip ? { 'clip-path': `url(#${clip.attributes.id})` } : {}),
      d: pathData(shape, frame) }),
    ...(arrows ? [tree('path', { class: classOf(`arrows ${style}`), d: arrows })] : []),
    ...(dots ? [tree('path', { class: classOf(`dots ${style}`), d: dots })] : []),
  ];
}

/**
 * What is in one of some polygons. Its name is made of its content, so that equal ones may have one name in a page.
 * @param {import('./clip.js').Line[][]} polygons
 * @param {Frame} frame
 * @returns {Tree}
 */
function clipOf(polygons, frame) {
  const data = polygons.map((lines) => pathData({ lines }, frame));
  let sum = 0;
  for (const letter of data.join()) sum = (Math.imul(sum, 31) + letter.charCodeAt(0)) | 0;
  return tree('clipPath', { id: `clip-${data.join().length}-${sum >>> 0}` }, data.map((d) => tree('path', { 'clip-rule': 'evenodd', d })));
}
