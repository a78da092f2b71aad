// Pictures of faults, features and tiles. There is no document here: a picture is plain data, which the viewer shows, and which can be
// written as an SVG file.
//
// What a drawing shows has attributes, so that it can be found in a page or a file. `data-role` is
// - of a plane: extent, grid; ring, other-ring, first-edge, second-edge, point, vertex, hole, other-hole, other-polygon; cut, added,
//   kept, before, after (of a mended feature); path, last-position, step (that would lead out of range), rest (after a step of no length); feature (of a map), features (of a map, too
//   many for elements of their own);
// - of a strip: number, fault-number; layer, fault-layer; byte, fault-byte, field.
// With it come data-layer, data-feature, data-polygon, data-ring, data-edge, data-vertex, data-path, data-index (of a number) and
// data-offset (of a byte or a field), counted as faults count them; data-x and data-y, of a point as lowest fractions, such as 40/9;
// data-from and data-to of edges, such as '0 8'; and data-extent.

import { typeName } from '../tile/layers.js';
import { pictureOfBytes } from './kinds/bytes.js';
import { pictureOfCommands } from './kinds/commands.js';
import { pictureOfFeature } from './kinds/feature.js';
import { pictureOfLayers } from './kinds/layers.js';
import { mapOfTile } from './kinds/map.js';
import { pictureOfMeeting } from './kinds/meeting.js';
import { pictureOfMended } from './kinds/mended.js';
import { pictureOfRing } from './kinds/ring.js';
import { pictureOfTags } from './kinds/tags.js';
import { pictureOfVertexInHole, pictureOfVertexInPolygon, pictureOfVertexOutside } from './kinds/vertex.js';
import { pictureTree } from './svg.js';
import { fileOf } from './tree.js';
import { quotedName } from './words.js';

export { mapOfTile, pictureOfFeature, pictureOfMended };

/** @typedef {import('./types.js').Picture} Picture */
/** @typedef {import('./types.js').Fault} Fault */
/** @typedef {import('./types.js').FeatureOfFault} FeatureOfFault */
/** @typedef {import('./types.js').TileRecord} TileRecord */
/** @typedef {import('./types.js').Box} Box */
/** @typedef {{width: number, height: number}} Size */

const SIZE = { width: 800, height: 600 };

/**
 * How to draw the faults that are in a feature.
 * @type {Record<number, (fault: any, of: FeatureOfFault) => Picture|null>}
 */
const DRAWN_BY = {
  301: pictureOfTags, 302: pictureOfTags, 303: pictureOfTags, 304: pictureOfTags,
  401: pictureOfCommands, 402: pictureOfCommands, 403: pictureOfCommands, 404: pictureOfCommands, 405: pictureOfCommands, 406: pictureOfCommands,
  501: pictureOfRing, 502: pictureOfRing, 503: pictureOfRing,
  504: pictureOfMeeting, 505: pictureOfVertexOutside, 506: pictureOfVertexInHole, 507: pictureOfVertexInPolygon,
};

/**
 * The picture of a fault, or null where the tile doesn't have what the fault names.
 * @param {Fault} fault
 * @param {Uint8Array} tile
 * @param {TileRecord|null} record what `dump` writes of the tile; a wire fault needs none
 * @returns {Picture|null}
 */
export function pictureOfFault(fault, tile, record) {
  if (fault.code < 200) return pictureOfBytes(/** @type {any} */ (fault), tile);
  if (!record) return null;
  if (fault.code < 300) return pictureOfLayers(/** @type {any} */ (fault), record);
  const layer = record.layers[fault.layer], feature = layer?.features[fault.feature];
  if (!feature || !DRAWN_BY[fault.code]) return null;
  const picture = DRAWN_BY[fault.code](fault, { feature, layer, extent: layer.extent });
  return picture && { ...picture, places: [...picture.places, featurePlace(fault, feature, layer)] };
}

/**
 * @param {Fault} fault
 * @param {import('./types.js').Feature} feature
 * @param {import('./types.js').Layer} layer
 * @returns {import('./types.js').Place}
 */
function featurePlace(fault, { id, type }, { name }) {
  const idText = id === null || id === undefined ? '' : `, id ${id}`;
  const layerText = `layer ${fault.layer} (${quotedName(name)})`;
  return { name: 'feature', text: `${fault.feature} of ${layerText}, ${typeName(type)}${idText}` };
}

/**
 * The elements of an SVG file, in light colours.
 * @param {Picture} picture
 * @param {Box|null} [box] the whole where it is left out
 * @param {Size} [size] of the plane, in pixels
 * @returns {import('./tree.js').Tree}
 */
export function toTree(picture, box = picture.box, size = SIZE) {
  return pictureTree(picture, box, size);
}

/**
 * A whole SVG file, in light colours.
 * @param {Picture} picture
 * @param {Box|null} [box] the whole where it is left out
 * @param {Size} [size] of the plane, in pixels
 * @returns {string}
 */
export function toText(picture, box = picture.box, size = SIZE) {
  return fileOf(toTree(picture, box, size));
}
