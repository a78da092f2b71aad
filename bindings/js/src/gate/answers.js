/**
 * What the module answered, as values.
 *
 * @typedef {import('./calls.js').Confirmation} Confirmation
 * @typedef {import('./calls.js').Faults} Faults
 * @typedef {import('./calls.js').Mending} Mending
 * @typedef {import('../types.js').Fault} Fault
 * @typedef {import('../types.js').Mended} Mended
 * @typedef {import('../types.js').Dumped} Dumped
 * @typedef {import('../types.js').Advised} Advised
 */
import { readRecord } from '../tile/record.js';

/**
 * @param {string | null} text
 * @returns {Fault | null}
 */
export function faultOf(text) {
  return text === null ? null : JSON.parse(text);
}

/**
 * @param {Faults} faults
 * @returns {Fault[]}
 */
export function faultsOf({ texts }) {
  return texts.map((text) => JSON.parse(text));
}

/**
 * @param {Confirmation} confirmation
 * @returns {boolean} TypeError where the text was no fault
 */
export function isConfirmed(confirmation) {
  if (confirmation === 'confirmed') return true;
  if (confirmation === 'not confirmed') return false;
  throw new TypeError(`the text of the fault is ${confirmation}`);
}

/**
 * @param {Uint8Array} tile that was to be mended
 * @param {Mending} mending
 * @returns {Mended}
 */
export function mendedOf(tile, mending) {
  if (mending.fault !== null) return { outcome: 'refused', tile: null, changed: [], fault: JSON.parse(mending.fault) };
  if (mending.tile === null) return { outcome: 'valid', tile, changed: [], fault: null };
  return { outcome: 'mended', tile: mending.tile, changed: JSON.parse(mending.report ?? '').changed, fault: null };
}

/**
 * @param {{record: string | null, fault: string | null}} texts
 * @returns {Dumped}
 */
export function dumpedOf({ record, fault }) {
  if (record === null) return { record: null, fault: JSON.parse(fault ?? '') };
  return { record: /** @type {any} */ (readRecord(record)), fault: null };
}

/**
 * @param {{advice: string | null, fault: string | null}} texts
 * @returns {Advised}
 */
export function advisedOf({ advice, fault }) {
  if (advice === null) return { advice: null, fault: JSON.parse(fault ?? '') };
  return { advice: JSON.parse(advice).advice, fault: null };
}
