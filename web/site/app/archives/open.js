// Archives among the files that come in: MBTiles files and PMTiles archives, by how their bytes begin.

import { TILE_NAME } from '../files/gather.js';
import { Unreadable } from '../files/read.js';
import { Mbtiles } from './mbtiles/archive.js';
import { MAGIC } from './pmtiles/header.js';
import { Pmtiles } from './pmtiles/archive.js';

/** @typedef {import('../files/gather.js').Source} Source */
/** @typedef {{zoom: number, column: number, row: number}} Place of a tile, with its row from the north */
/**
 * What an archive says of its tiles.
 * @typedef {object} Archive
 * @property {string} note what its reader has to know; mostly empty
 * @property {() => Promise<number[]>} zooms that have tiles, in order
 * @property {(zoom: number) => Promise<{column: number, row: number}|null>} middle a tile in the middle of those of a zoom
 * @property {(places: Place[]) => Promise<Place[]>} present those of these places that have a tile
 * @property {(place: Place) => Promise<Blob|null>} tile its bytes as they are stored; null where there is none
 */

const HEADS = { mbtiles: 'SQLite format 3\0', pmtiles: MAGIC };
const OPENERS = { mbtiles: Mbtiles, pmtiles: Pmtiles };

/** @typedef {keyof typeof HEADS} Kind */

/**
 * Which of the files are archives.
 * @param {Source[]} sources
 * @returns {Promise<{archives: {source: Source, kind: Kind}[], tiles: Source[]}>}
 */
export async function sorted(sources) {
  const archives = [], tiles = [];
  for (const source of sources) {
    const kind = mayBeArchive(source) ? await kindOf(source.file) : null;
    if (kind) archives.push({ source, kind });
    else tiles.push(source);
  }
  return { archives, tiles };
}

/**
 * Whether a file has to be looked into. (A folder may have very many that are named like tiles.)
 * @param {Source} source
 */
export function mayBeArchive({ name }) {
  return !TILE_NAME.test(name);
}

/**
 * @param {Blob} file
 * @returns {Promise<Kind|null>}
 */
async function kindOf(file) {
  try {
    const head = new TextDecoder('latin1').decode(await file.slice(0, 16).arrayBuffer());
    return /** @type {Kind[]} */ (Object.keys(HEADS)).find((kind) => head.startsWith(HEADS[kind])) ?? null;
  } catch {
    return null; // (whoever reads it is told why)
  }
}

/**
 * @param {Kind} kind
 * @param {Blob} file
 * @returns {Promise<Archive>}
 */
export async function openArchive(kind, file) {
  const archive = await OPENERS[kind].open(file);
  if ((await archive.zooms()).length === 0) throw new Unreadable('the archive has no tile');
  return archive;
}
