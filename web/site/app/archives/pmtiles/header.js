// The header of a PMTiles archive, its first 127 bytes (PMTiles specification, version 3, section 3).

import { Unreadable } from '../../files/read.js';

export const HEADER_SIZE = 127;
export const MAGIC = 'PMTiles';

const VERSION = 3;
const NONE = 1, GZIP = 2;
const PACKINGS = ['in an unknown way', 'not at all', 'by gzip', 'by brotli', 'by Zstandard'];
const KINDS = ['of an unknown kind', 'vector tiles', 'PNG pictures', 'JPEG pictures', 'WebP pictures', 'AVIF pictures', 'MapLibre tiles'];
const UNKNOWN_KIND = 0, VECTOR = 1, UNKNOWN_PACKING = 0;

/** @typedef {{at: number, length: number}} Section a part of the archive */
/** @typedef {{root: Section, leaves: Section, data: Section, isPacked: boolean}} Header `isPacked` is of directories, by gzip */

/**
 * @param {Uint8Array} head
 * @returns {Header}
 */
export function headerOf(head) {
  if (head.length < HEADER_SIZE) throw new Unreadable('the archive is cut: it ends in its header');
  const view = new DataView(head.buffer, head.byteOffset);
  if (head[7] !== VERSION) throw new Unreadable(`it is a PMTiles archive of version ${head[7]}, and only version ${VERSION} is read`);
  const directories = head[97], tiles = head[98], kind = head[99];
  if (directories !== NONE && directories !== GZIP) throw new Unreadable(`its directories are packed ${nameOf(PACKINGS, directories)}; gzip and none are read`);
  if (tiles !== NONE && tiles !== GZIP && tiles !== UNKNOWN_PACKING) throw new Unreadable(`its tiles are packed ${nameOf(PACKINGS, tiles)}; gzip and none are read`);
  if (kind !== UNKNOWN_KIND && kind !== VECTOR) throw new Unreadable(`its tiles are no Mapbox vector tiles, but ${nameOf(KINDS, kind)}`);
  return { root: sectionAt(view, 8), leaves: sectionAt(view, 40), data: sectionAt(view, 56), isPacked: directories === GZIP };
}

/**
 * @param {string[]} names
 * @param {number} number
 */
function nameOf(names, number) {
  return names[number] ?? names[0];
}

/**
 * A section, which may be beyond any file's end. (Above 2^53 the numbers aren't exact, and beyond any file too.)
 * @param {DataView} view
 * @param {number} at
 * @returns {Section}
 */
function sectionAt(view, at) {
  return { at: Number(view.getBigUint64(at, true)), length: Number(view.getBigUint64(at + 8, true)) };
}
