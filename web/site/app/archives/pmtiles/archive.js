// A PMTiles archive as tiles (PMTiles specification, version 3), of which the directories are read that are needed.

import { Unreadable } from '../../files/read.js';
import { digits } from '../../tools/text.js';
import { Kept } from '../kept.js';
import { middleOf } from '../middle.js';
import { bytesAt, sliceOf } from '../slices.js';
import { DIRECTORY_LIMIT, directoryOf, entryBefore } from './directory.js';
import { HEADER_SIZE, headerOf } from './header.js';
import { LAST_ZOOM, firstId, idOf, placeOf } from './ids.js';

/** @typedef {import('./directory.js').Directory} Directory */
/** @typedef {import('./header.js').Header} Header */
/** @typedef {import('../open.js').Archive} Archive */
/** @typedef {{id: number, after: number, at: number, length: number}} Tiles those with ids from one to before another, and their bytes */
/** @typedef {{directory: Directory, at: number, after: number}} Level an entry of a directory, which is for ids up to another */

const DEPTH = 4; // directories that lead to a tile, the root among them
const KEPT = 32; // leaf directories
const MOST_READ = 64; // leaf directories for one question

/** @implements {Archive} */
export class Pmtiles {
  note = '';
  #file;
  #header;
  #root;
  /** @type {Kept<Directory>} leaf directories by where they are and what they are for */
  #leaves = new Kept(KEPT);

  /**
   * @param {Blob} file
   * @param {Header} header
   * @param {Directory} root
   */
  constructor(file, header, root) {
    this.#file = file;
    this.#header = header;
    this.#root = root;
  }

  /** @param {Blob} file */
  static async open(file) {
    const header = headerOf(await bytesAt(file, 0, Math.min(HEADER_SIZE, file.size)));
    for (const { at, length } of [header.root, header.leaves, header.data]) sliceOf(file, at, length);
    return new Pmtiles(file, header, await directoryAt(file, header.root.at, header.root.length, header.isPacked, 0, Infinity));
  }

  /** @returns {Promise<number[]>} the zooms that have tiles */
  async zooms() {
    const found = [];
    for (let zoom = 0; zoom <= LAST_ZOOM; zoom += 1) if ((await this.#nextIn(zoom, firstId(zoom))) !== null) found.push(zoom);
    return found;
  }

  /** @param {number} zoom */
  async middle(zoom) {
    const id = await middleOf(firstId(zoom), firstId(zoom + 1), (at) => this.#nextIn(zoom, at));
    return id === null ? null : placeOf(zoom, id);
  }

  /** @param {import('../open.js').Place[]} places */
  async present(places) {
    const found = [];
    for (const place of places) if (await this.#find(place)) found.push(place);
    return found;
  }

  /** @param {import('../open.js').Place} place */
  async tile(place) {
    const found = await this.#find(place);
    if (!found) return null;
    if (found.at + found.length > this.#header.data.length) throw new Unreadable('its bytes are beyond the end of their part of the archive');
    return sliceOf(this.#file, this.#header.data.at + found.at, found.length);
  }

  /**
   * @param {import('../open.js').Place} place
   * @returns {Promise<Tiles|null>}
   */
  async #find({ zoom, column, row }) {
    const id = idOf(zoom, column, row), found = await this.#tilesFrom(id);
    return found && found.id <= id ? found : null;
  }

  /**
   * The least id of a zoom from one on that has a tile.
   * @param {number} zoom
   * @param {number} id
   */
  async #nextIn(zoom, id) {
    const found = await this.#tilesFrom(id), next = found && Math.max(found.id, id);
    return next !== null && next < firstId(zoom + 1) ? next : null;
  }

  /**
   * The first tiles of which one has this id or a greater one.
   * @param {number} id
   * @returns {Promise<Tiles|null>}
   */
  async #tilesFrom(id) {
    /** @type {Level[]} those that lead to what is looked at, each with the entry that comes next */
    const levels = [levelFrom(this.#root, id, Infinity)];
    for (let read = 0; levels.length; ) {
      const level = levels[levels.length - 1], { directory: { count, ids, runs, lengths, offsets }, at } = level;
      level.at += 1;
      if (at >= count) levels.pop();
      else if (runs[at] === 0) {
        read += 1;
        if (levels.length === DEPTH) throw new Unreadable(`a leaf directory is more than ${DEPTH - 1} directories below the root`);
        if (read > MOST_READ) throw new Unreadable('too many leaf directories have no tile');
        const after = at + 1 < count ? ids[at + 1] : level.after;
        levels.push(levelFrom(await this.#leaf(offsets[at], lengths[at], ids[at], after), id, after));
      } else if (ids[at] + runs[at] > id) return { id: ids[at], after: ids[at] + runs[at], at: offsets[at], length: lengths[at] };
    }
    return null;
  }

  /**
   * @param {number} offset
   * @param {number} length
   * @param {number} first
   * @param {number} after
   * @returns {Promise<Directory>}
   */
  #leaf(offset, length, first, after) {
    return this.#leaves.get([offset, length, first, after].join(), () => this.#readLeaf(offset, length, first, after));
  }

  /**
   * @param {number} offset
   * @param {number} length
   * @param {number} first
   * @param {number} after
   */
  async #readLeaf(offset, length, first, after) {
    const { leaves, isPacked } = this.#header;
    if (offset + length > leaves.length) throw new Unreadable('a leaf directory is beyond the end of its part of the archive');
    return directoryAt(this.#file, leaves.at + offset, length, isPacked, first, after);
  }
}

/**
 * @param {Blob} file
 * @param {number} at
 * @param {number} length
 * @param {boolean} isPacked
 * @param {number} first
 * @param {number} after
 */
async function directoryAt(file, at, length, isPacked, first, after) {
  if (length > DIRECTORY_LIMIT) throw new Unreadable(`a directory is larger than ${digits(DIRECTORY_LIMIT)} bytes`);
  return directoryOf(await bytesAt(file, at, length), isPacked, first, after);
}

/**
 * A directory from the first entry on that may have this id or a greater one.
 * @param {Directory} directory
 * @param {number} id
 * @param {number} after
 * @returns {Level}
 */
function levelFrom(directory, id, after) {
  return { directory, at: Math.max(0, entryBefore(directory, id)), after };
}
