/**
 * Other formats that are taken for tiles, by how their bytes begin. bindings/README.md has the rule.
 *
 * @typedef {{title: string, sentence: string, remedy: string}} Words
 * @typedef {{name: string} & Words} Format
 * @typedef {{[name: string]: Words & {begins: string[], after?: string[]}}} Formats
 */

const HEAD = 1024; // bytes that are looked at
const LAST_WIRE_FAULT = 111;

/**
 * @param {Formats} formats
 * @param {{[key: string]: any}} fault of the tile
 * @param {Uint8Array} tile
 * @returns {Format | null} the format of the tile's bytes; null where none is known, and for a fault that isn't one of bytes
 */
export function formatInWords(formats, fault, tile) {
  if (fault.code > LAST_WIRE_FAULT) return null;
  const head = Array.from(tile.subarray(0, HEAD), (byte) => byte.toString(16).padStart(2, '0')).join('');
  const [name, found] = Object.entries(formats).find(([, { begins, after }]) => beginsWith(head, begins, after ?? [])) ?? [];
  return name && found ? { name, title: found.title, sentence: found.sentence, remedy: found.remedy } : null;
}

/**
 * @param {string} head in hexadecimal, as the others
 * @param {string[]} begins
 * @param {string[]} after is passed over, as often as there is one
 */
function beginsWith(head, begins, after) {
  let at = 0;
  const passed = () => after.find((it) => head.startsWith(it, at));
  for (let it = passed(); it; it = passed()) at += it.length;
  return begins.some((it) => head.startsWith(it, at));
}
