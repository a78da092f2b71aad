// A tile in an address: #tile=BASE64&profile=feature. The base64 is that of RFC 4648 with the letters for addresses, - and _;
// those of the common alphabet are read too. The bytes may be packed by gzip or zlib.

import { pack, packingOf } from './packing.js';
import { LINK_LIMIT } from './limits.js';
import { Unreadable } from './read.js';

/** @typedef {'polygon'|'feature'} Profile */

/**
 * The bytes that a text of base64 has.
 * @param {string} text
 * @returns {Uint8Array}
 */
export function bytesOfBase64(text) {
  const binary = atob(text.replaceAll('-', '+').replaceAll('_', '/'));
  return Uint8Array.from(binary, (letter) => letter.charCodeAt(0));
}

/**
 * @param {Uint8Array} bytes
 */
export function base64OfBytes(bytes) {
  const binary = Array.from(bytes, (byte) => String.fromCharCode(byte)).join('');
  return btoa(binary).replaceAll('+', '-').replaceAll('/', '_').replaceAll('=', '');
}

/**
 * The tile and the profile in the part of an address after #, or null where it has no tile.
 * @param {string} fragment
 * @returns {{bytes: Uint8Array, profile: Profile}|null}
 */
export function readLink(fragment) {
  const tile = /(?:^|[#&])tile=([^&\s]*)/.exec(fragment);
  if (!tile) return null;
  const profile = /[#&]profile=feature(?![^&\s])/.test(fragment) ? 'feature' : 'polygon';
  try {
    return { bytes: bytesOfBase64(decodeURIComponent(tile[1])), profile };
  } catch {
    throw new Unreadable('its tile is no base64');
  }
}

/**
 * The part of an address after #, for a tile: packed where that is shorter, and where its own bytes would be taken for packed ones. Null
 * where it is too long.
 * @param {Uint8Array} tile
 * @param {Profile} profile
 * @returns {Promise<string|null>}
 */
export async function writeLink(tile, profile) {
  if (tile.length > LINK_LIMIT * 16) return null; // (few tiles are packed to less than a sixteenth)
  const packed = await pack(tile);
  const carried = packed.length < tile.length || packingOf(tile) ? packed : tile;
  return carried.length > LINK_LIMIT ? null : linkOf(base64OfBytes(carried), profile);
}

/**
 * @param {string} base64 a tile, packed or not
 * @param {Profile} profile
 */
export function linkOf(base64, profile) {
  return `#tile=${base64}${profile === 'feature' ? '&profile=feature' : ''}`;
}
