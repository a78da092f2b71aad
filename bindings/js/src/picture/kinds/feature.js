// The picture of a feature by itself.

import { followCommands } from '../../tile/commands.js';
import { typeName } from '../../tile/layers.js';
import { extentBox, isEmpty, sizeOf, union, withMargin } from '../plane/box.js';
import { figureBounds, pathShapes } from './paths.js';
import { counted, positionText } from '../words.js';

/** @typedef {import('../types.js').Picture} Picture */

const MOST_NUMBERS = 4000000; // a geometry of more is not followed to its end

/**
 * @param {import('../types.js').Feature} feature
 * @param {number} extent
 * @returns {Picture}
 */
export function pictureOfFeature(feature, extent) {
  const figure = followCommands(feature.geometry, feature.type, Math.min(feature.geometry.length, MOST_NUMBERS));
  const bounds = figureBounds(figure), tile = withMargin(extentBox(extent));
  const isWhole = figure.followed === feature.geometry.length;
  return {
    kind: 'feature', title: 'The feature',
    words: `A feature of type ${typeName(feature.type)}: ${counted(figure.count, 'position', 'positions')} in `
      + `${counted(figure.paths.length, 'path', 'paths')}`
      + `${isWhole ? '.' : `, as far as the first ${figure.followed} of ${feature.geometry.length} numbers lead.`}`,
    places: [
      { name: 'type', text: typeName(feature.type) },
      { name: 'positions', text: String(figure.count) },
      ...(isEmpty(bounds) ? [] : [
        { name: 'from', text: positionText({ x: bounds.left, y: bounds.top }) },
        { name: 'to', text: positionText({ x: bounds.right, y: bounds.bottom }) },
      ]),
    ],
    plane: { extent, items: pathShapes(figure) },
    strip: null, box: isEmpty(bounds) || sizeOf(bounds) === 0 ? union(tile, bounds) : withMargin(bounds), close: null, tile,
  };
}
