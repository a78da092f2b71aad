// The texts of a tile.

/** (U+FEFF at the beginning is a letter of a text, and no mark of the order of bytes.) */
const UTF8 = new TextDecoder('utf-8', { ignoreBOM: true });

/**
 * @param {Uint8Array} bytes
 * @returns {string} bytes that are no UTF-8 become U+FFFD
 */
export function textOfBytes(bytes) {
  return UTF8.decode(bytes);
}
