// Directories of a PMTiles archive: which bytes are those of which tiles (PMTiles specification, version 3, section 4).

import { unpack } from '../../files/packing.js';
import { Unreadable } from '../../files/read.js';
import { digits } from '../../tools/text.js';

/** What is unpacked of one directory, in bytes; writers keep to some hundred thousand. */
export const DIRECTORY_LIMIT = 1 << 21;

const LEAST_ENTRY = 4; // bytes

/**
 * Entries by their numbers: the first tile's id, how many tiles there are with ids one after another that are all the same, or 0 for a
 * leaf directory, and where the bytes are.
 * @typedef {{count: number, ids: Float64Array, runs: Float64Array, lengths: Float64Array, offsets: Float64Array}} Directory
 */

/**
 * The directory for the tiles from one id to before another.
 * @param {Uint8Array} stored
 * @param {boolean} isPacked by gzip
 * @param {number} first
 * @param {number} after
 * @returns {Promise<Directory>}
 */
export async function directoryOf(stored, isPacked, first, after) {
  const bytes = isPacked ? await unpacked(stored) : stored;
  if (bytes.length > DIRECTORY_LIMIT) throw new Unreadable(`a directory is larger than ${digits(DIRECTORY_LIMIT)} bytes`);
  const reader = new NumberReader(bytes), count = reader.next();
  // (nothing is reserved for entries that aren't there)
  if (count * LEAST_ENTRY > bytes.length) throw new Unreadable('a directory is cut');
  const ids = summed(reader.take(count)), runs = reader.take(count), lengths = reader.take(count);
  const offsets = offsetsOf(reader.take(count), lengths);
  if (reader.at !== bytes.length) throw new Unreadable('there are bytes after the end of a directory');
  requireOrder(ids, runs, lengths, first, after);
  return { count, ids, runs, lengths, offsets };
}

/** @param {Uint8Array} stored */
async function unpacked(stored) {
  return unpack(stored, DIRECTORY_LIMIT).catch((error) => {
    throw new Unreadable(`a directory can't be read: ${error.message}`);
  });
}

/** Reads varints one after another. Numbers that a double doesn't hold exactly are refused: no file has so many bytes or tiles. */
class NumberReader {
  at = 0;
  #bytes;

  /** @param {Uint8Array} bytes */
  constructor(bytes) {
    this.#bytes = bytes;
  }

  next() {
    let number = 0;
    for (let weight = 1; ; weight *= 128) {
      const byte = this.#bytes[this.at];
      if (byte === undefined) throw new Unreadable('a directory is cut');
      this.at += 1;
      number += (byte % 128) * weight;
      if (number > Number.MAX_SAFE_INTEGER || weight > Number.MAX_SAFE_INTEGER) throw new Unreadable('a number of a directory is too large');
      if (byte < 128) return number;
    }
  }

  /** @param {number} count */
  take(count) {
    return Float64Array.from({ length: count }, () => this.next());
  }
}

/** @param {Float64Array} steps */
function summed(steps) {
  let sum = 0;
  return steps.map((step) => (sum += step));
}

/**
 * Where each entry's bytes are: 0 stands for where those of the entry before end, any other number for one more than the offset.
 * @param {Float64Array} written
 * @param {Float64Array} lengths
 */
function offsetsOf(written, lengths) {
  if (written[0] === 0) throw new Unreadable('the first offset of a directory is missing');
  let end = 0;
  return written.map((number, at) => {
    const offset = number === 0 ? end : number - 1;
    end = offset + lengths[at];
    return offset;
  });
}

/**
 * Ids rise, tiles don't overlap, no entry is empty, and all are of the ids that the directory is for. So whoever goes down through
 * leaves comes to an end.
 * @param {Float64Array} ids
 * @param {Float64Array} runs
 * @param {Float64Array} lengths
 * @param {number} first
 * @param {number} after
 */
function requireOrder(ids, runs, lengths, first, after) {
  let least = first;
  ids.forEach((id, at) => {
    if (id < least) throw new Unreadable('the tiles of a directory overlap, or are out of order');
    if (lengths[at] === 0) throw new Unreadable('an entry of a directory has no bytes');
    least = id + Math.max(1, runs[at]);
  });
  if (least > after) throw new Unreadable("a directory has tiles that it isn't for");
}

/**
 * The last entry that begins with this id or before it; -1 where there is none.
 * @param {Directory} directory
 * @param {number} id
 */
export function entryBefore({ ids, count }, id) {
  let low = 0, high = count;
  while (low < high) {
    const half = (low + high) >> 1;
    if (ids[half] <= id) low = half + 1;
    else high = half;
  }
  return low - 1;
}
