// What a fault is about: the names of things, where the fault has their ordinals.

import { Cursor } from '../../../../bindings/js/src/tile/cursor.js';
import { layerName, messageOfFault, readField } from '../../../../bindings/js/src/tile/fields.js';
import { textOfBytes } from '../../../../bindings/js/src/tile/text.js';

/** @typedef {import('../../../../bindings/js/src/picture/types.js').Fault} Fault */
/** @typedef {import('../../../../bindings/js/src/tile/fields.js').Message} Message */
/** @typedef {{layer: string|null, featureId: string|null, extent: number}} About a layer's name, and a feature's id in digits */

const EXTENT = 5, ID = 1; // (Mapbox Vector Tile Specification 2.1, section 4)
const COMMON_EXTENT = 4096; // where a layer says none

/**
 * @param {Fault} fault
 * @param {Uint8Array} tile
 * @returns {About}
 */
export function aboutOf(fault, tile) {
  const layer = messageAt(tile, 'layer', fault.layer ?? fault.first, fault);
  const name = layer && layerName(tile, layer), feature = messageAt(tile, 'feature', fault.feature, fault);
  return {
    layer: name && textOfBytes(name), featureId: feature && numberOf(tile, feature, ID),
    extent: Number((layer && numberOf(tile, layer, EXTENT)) ?? COMMON_EXTENT),
  };
}

/**
 * @param {Uint8Array} tile
 * @param {'layer'|'feature'} scope
 * @param {unknown} ordinal
 * @param {Fault} fault
 * @returns {Message|null}
 */
function messageAt(tile, scope, ordinal, fault) {
  if (typeof ordinal !== 'number') return null;
  const place = scope === 'layer' ? { layer: ordinal } : { layer: fault.layer, feature: ordinal };
  return messageOfFault(tile, { code: 0, at: 0, field: 0, scope, ...place });
}

/**
 * The number of a field of a message, in digits.
 * @param {Uint8Array} tile
 * @param {Message} message
 * @param {number} number
 */
function numberOf(tile, message, number) {
  const cursor = new Cursor(tile, message);
  while (cursor.read()) {
    if (cursor.number !== number || cursor.wireType !== 0) continue;
    const varint = readField(tile, cursor.at, message.end, message.kind)?.varint ?? null;
    return varint === null ? null : String(varint);
  }
  return null;
}

/**
 * The point of a fault as parts of the tile's width and height; null where it has none.
 * @param {Fault} fault
 * @param {About} about
 */
export function pointOf({ x, y, w }, { extent }) {
  if (w === undefined || extent === 0) return null;
  return { x: Number(x) / Number(w) / extent, y: Number(y) / Number(w) / extent };
}
