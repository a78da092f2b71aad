/**
 * What a caller hands over, as the module takes it; a TypeError where it can't.
 *
 * @typedef {import('./calls.js').Profile} Profile
 * @typedef {import('../types.js').Fault} Fault
 * @typedef {import('../types.js').Bytes} Bytes
 */

/**
 * @param {Bytes} tile
 * @returns {Uint8Array} its very bytes
 */
export function bytesOf(tile) {
  if (tile instanceof Uint8Array) return tile;
  if (ArrayBuffer.isView(tile)) return new Uint8Array(tile.buffer, tile.byteOffset, tile.byteLength);
  const kind = Object.prototype.toString.call(tile);
  if (kind === '[object ArrayBuffer]' || kind === '[object SharedArrayBuffer]') return new Uint8Array(tile);
  throw new TypeError('a tile is a Uint8Array, another view of bytes, or an ArrayBuffer');
}

/**
 * @param {{profile?: Profile}} options
 * @returns {Profile}
 */
export function profileOf({ profile = 'polygon' }) {
  if (profile !== 'polygon' && profile !== 'feature') throw new TypeError(`there is no profile ${String(profile)}`);
  return profile;
}

/**
 * @param {{limit?: number}} options
 * @returns {number} how many faults are wanted at most
 */
export function limitOf({ limit = Infinity }) {
  if (typeof limit !== 'number' || !(limit >= 0)) throw new TypeError('a limit is a number of at least 0');
  return limit;
}

/**
 * @param {Fault | string} fault
 * @returns {string} its text
 */
export function textOf(fault) {
  const text = typeof fault === 'string' ? fault : JSON.stringify(fault);
  if (typeof text !== 'string') throw new TypeError('a fault is an object, or its text');
  return text;
}
