// Texts of positions, rings and polygons.

import { vertexCount } from '../tile/rings.js';
import { textOfBytes } from '../tile/text.js';
import { isolated } from '../words/isolated.js';

/** @typedef {import('./kinds/polygons.js').Feature} Feature */
/** @typedef {import('./types.js').Place} Place */

const MOST_PLACES = 40;
const LONGEST_TEXT = 32; // letters of a text among bytes
const LONGEST_NAME = 60; // (browsers take minutes for a line of megabytes whose letters run in both directions)

/**
 * @param {{x: number, y: number}} position
 * @returns {string}
 */
export function positionText({ x, y }) {
  return `(${x}, ${y})`;
}

/**
 * @param {{edge: number, ring: number, from: {x: number, y: number}, to: {x: number, y: number}}} edge
 * @returns {string}
 */
export function edgeText({ edge, ring, from, to }) {
  return `ring ${ring}, edge ${edge}: ${positionText(from)} to ${positionText(to)}`;
}

/**
 * @param {Feature} of
 * @param {number} ring
 * @returns {string}
 */
export function ringText({ figure, groups }, ring) {
  const area = groups.areas[ring];
  const kind = area > 0n ? 'exterior' : area < 0n ? 'hole' : 'ring without area';
  return `${kind} of ${counted(vertexCount(figure, ring), 'vertex', 'vertices')}, doubled area ${area}`;
}

/**
 * A line for each ring, those at fault first, as far as there aren't too many.
 * @param {Feature} of
 * @param {number[]} rings
 * @param {Set<number>} atFault some of them
 * @returns {Place[]}
 */
export function ringPlaces(of, rings, atFault) {
  const ordered = [...atFault, ...rings.filter((ring) => !atFault.has(ring))];
  const places = ordered.slice(0, MOST_PLACES).map((ring) => ({ name: `ring ${ring}`, text: ringText(of, ring) }));
  return rings.length > MOST_PLACES ? [...places, { name: 'more rings', text: String(rings.length - MOST_PLACES) }] : places;
}

/**
 * '1 vertex', '2 vertices'.
 * @param {number} count
 * @param {string} one
 * @param {string} many
 * @returns {string}
 */
export function counted(count, one, many) {
  return `${count} ${count === 1 ? one : many}`;
}

/**
 * 'ring 0', 'rings 0 and 2', 'rings 0, 1 and 2'
 * @param {number[]} rings
 * @returns {string}
 */
export function ringList(rings) {
  if (rings.length === 1) return `ring ${rings[0]}`;
  if (rings.length > 6) return `${rings.length} rings`;
  return `rings ${rings.slice(0, -1).join(', ')} and ${rings[rings.length - 1]}`;
}

/**
 * A text, or its beginning where it is long. No letter of two units of UTF-16 is halved.
 * @param {string} text
 * @param {number} most letters
 * @returns {string}
 */
export function cut(text, most) {
  return text.length > most ? `${text.slice(0, most - 1).replace(/[\ud800-\udbff]$/, '')}…` : text;
}

/**
 * A layer's name in quotes, or its beginning where it is long.
 * @param {string} name
 * @returns {string}
 */
export function quotedName(name) {
  return isolated(cut(JSON.stringify(name), LONGEST_NAME));
}

/**
 * The beginning of a text in quotes. Bytes that are no UTF-8 become U+FFFD.
 * @param {Uint8Array} bytes
 * @returns {string}
 */
export function shortText(bytes) {
  return isolated(JSON.stringify(cut(textOfBytes(bytes.subarray(0, 4 * LONGEST_TEXT)), LONGEST_TEXT)));
}
