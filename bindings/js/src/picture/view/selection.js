// The features of a map that can be selected.

import { isShape } from '../plane/scene.js';

/** @typedef {import('../types.js').Picture} Picture */
/** @typedef {import('../plane/scene.js').Shape} Shape */
/** @typedef {{layer: number, feature: number}} Selected */

const NEAR = 7; // pixels from a click to what it selects
const AROUND = [[0, 0], [-1, 0], [1, 0], [0, -1], [0, 1], [-0.7, -0.7], [0.7, -0.7], [-0.7, 0.7], [0.7, 0.7]];

/**
 * The shapes of a map's features, in order.
 * @param {Picture} picture
 * @returns {Shape[]}
 */
export function selectableShapes({ plane }) {
  return (plane?.items ?? []).flatMap((item) => (isShape(item) && 'data-feature' in item.attributes ? [item] : []));
}

/**
 * @param {Shape} shape
 * @returns {Selected}
 */
export function featureOfShape({ attributes }) {
  return { layer: Number(attributes['data-layer']), feature: Number(attributes['data-feature']) };
}

/**
 * Where the feature is among the shapes; -1 where it isn't.
 * @param {Shape[]} shapes
 * @param {Selected|null} selected
 * @returns {number}
 */
export function placeAmong(shapes, selected) {
  return shapes.findIndex(({ attributes }) => attributes['data-layer'] === selected?.layer && attributes['data-feature'] === selected?.feature);
}

/**
 * The feature that is drawn at a place of the window, or close to it.
 * @param {number} x
 * @param {number} y
 * @returns {Selected|null}
 */
export function featureAt(x, y) {
  for (const [dx, dy] of AROUND) {
    const found = document.elementFromPoint(x + dx * NEAR, y + dy * NEAR)?.closest('[data-feature]');
    if (found) return { layer: Number(found.getAttribute('data-layer')), feature: Number(found.getAttribute('data-feature')) };
  }
  return null;
}
