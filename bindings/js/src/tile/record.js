// The record of a tile, as `dump` writes it.

/** @typedef {import('./layers.js').TileRecord} TileRecord */

/**
 * Reads a record. Numbers of 16 digits and more, such as ids and values of 64 bits, become texts, since a double may not hold them.
 * @param {string} text
 * @returns {TileRecord}
 */
export function readRecord(text) {
  return JSON.parse(/\d{16}/.test(text) ? quoteLargeNumbers(text) : text);
}

/**
 * @param {string} text of JSON
 */
function quoteLargeNumbers(text) {
  const mark = /["\\]|-?\d{16,}/g;
  let [quoted, from, isInText] = ['', 0, false];
  for (let found = mark.exec(text); found; found = mark.exec(text)) {
    if (found[0] === '\\') mark.lastIndex += 1; // what is escaped ends no text
    else if (found[0] === '"') isInText = !isInText;
    else if (!isInText) {
      quoted += `${text.slice(from, found.index)}"${found[0]}"`;
      from = mark.lastIndex;
    }
  }
  return quoted + text.slice(from);
}
