// A tile as a text: digits of hexadecimal, as `xxd -p`, psql and log lines have them, or base64.

import { bytesOfBase64 } from './link.js';

const HEX_MARKS = /^(\\x|0x|x')/i;
const PLACE = /^\d+\/\d+\/\d+$/; // of a tile, which base64 could have too
const LEAST_LETTERS = 64; // of base64 whose first byte isn't that of a tile or of a packed one
const FIRST_BYTES = new Set([0x1a, 0x1f, 0x78]);

/**
 * The bytes that a text spells, or null where it doesn't look like any.
 * @param {string} text
 * @returns {Uint8Array|null}
 */
export function bytesOfText(text) {
  const letters = text.trim().replace(/^data:[^,]*;base64,/, '').replace(HEX_MARKS, '').replace(/'$/, '').replace(/[\s:]/g, '');
  // (a group that is repeated would take the stack for each of millions)
  if (letters.length > 0 && letters.length % 2 === 0 && !/[^0-9a-f]/i.test(letters)) return bytesOfHex(letters);
  if (PLACE.test(text.trim()) || !/^[\w+/-]{2,}={0,2}$/.test(letters)) return null;
  const bytes = bytesOrNull(letters);
  return bytes && (FIRST_BYTES.has(bytes[0]) || letters.length >= LEAST_LETTERS) ? bytes : null;
}

/** @param {string} digits */
function bytesOfHex(digits) {
  return Uint8Array.from({ length: digits.length / 2 }, (_, at) => parseInt(digits.slice(2 * at, 2 * at + 2), 16));
}

/** @param {string} base64 */
function bytesOrNull(base64) {
  try {
    return bytesOfBase64(base64);
  } catch {
    return null;
  }
}
