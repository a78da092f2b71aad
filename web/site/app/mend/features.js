// A feature of a tile and what became of it in the mended one.

import { readRecord } from '../../../../bindings/js/src/tile/record.js';
import { excerptOf } from '../contents/excerpt.js';
import { RECORD_LIMIT } from '../files/limits.js';

/** @typedef {import('../../../../bindings/js/src/types.js').Change} Change */
/** @typedef {import('../../../../bindings/js/src/gate/remote.js').RemoteGate} RemoteGate */
/** @typedef {import('../../../../bindings/js/src/picture/types.js').Feature} Feature */
/** @typedef {import('../../../../bindings/js/src/picture/types.js').Layer} Layer */

/**
 * The place of a changed feature in the mended tile: those before it that were left out don't count.
 * @param {Change[]} changed in order
 * @param {number} at
 */
export function placeAfter(changed, at) {
  const { layer, feature } = changed[at];
  const gone = changed.slice(0, at).filter((it) => it.what === 'dropped' && it.layer === layer).length;
  return { layer, feature: feature - gone };
}

/**
 * A feature with its layer, in which it is alone; null where it isn't there or is too large to be drawn.
 * @param {Pick<RemoteGate, 'dump'>} gate
 * @param {Uint8Array} tile
 * @param {{layer: number, feature: number}} place
 * @returns {Promise<{feature: Feature, layer: Layer}|null>}
 */
export async function featureAt(gate, tile, place) {
  const excerpt = excerptOf(tile, place);
  if (!excerpt || excerpt.size > RECORD_LIMIT) return null;
  const { record } = await gate.dump(new Uint8Array(await excerpt.arrayBuffer()));
  const layer = record === null ? null : readRecord(record).layers[0];
  return layer?.features[0] ? { feature: layer.features[0], layer } : null;
}
