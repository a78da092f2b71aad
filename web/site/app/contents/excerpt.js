// One feature of a large tile: a small tile with its layer, in which all other features are left out.

import { Cursor } from '../../../../bindings/js/src/tile/cursor.js';
import { messageOfFault } from '../../../../bindings/js/src/tile/fields.js';

/** @typedef {import('./record.js').TileRecord} TileRecord */
/** @typedef {import('./search.js').FeaturePlace} FeaturePlace */

const FEATURES = 2, LAYERS_KEY = 3 * 8 + 2; // (Mapbox Vector Tile Specification 2.1, section 4)

/**
 * The bytes of a tile that has this feature alone, or null where there is none such.
 * @param {Uint8Array} tile
 * @param {FeaturePlace} place
 * @returns {Blob|null}
 */
export function excerptOf(tile, { layer, feature }) {
  const message = messageOfFault(tile, { code: 0, at: 0, field: 0, scope: 'feature', layer, feature });
  if (!message?.outer) return null;
  const parts = [];
  let length = 0;
  const cursor = new Cursor(tile, message.outer);
  while (cursor.read()) {
    if (cursor.number === FEATURES && cursor.at !== message.at) continue;
    parts.push(tile.subarray(cursor.at, cursor.next));
    length += cursor.next - cursor.at;
  }
  return new Blob([Uint8Array.of(LAYERS_KEY, ...varint(length)), ...parts]);
}

/**
 * @param {number} number
 * @returns {number[]}
 */
function varint(number) {
  return number < 128 ? [number] : [number % 128 + 128, ...varint(Math.floor(number / 128))];
}

/**
 * The record of an excerpt as one of the whole tile, which has just this feature, at its place.
 * @param {TileRecord} excerpt
 * @param {FeaturePlace} place
 * @returns {TileRecord}
 */
export function recordAt({ layers: [only] }, { layer, feature }) {
  const features = [];
  features[feature] = only.features[0];
  const layers = [];
  layers[layer] = { ...only, features };
  return { layers };
}
