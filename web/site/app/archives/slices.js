// Parts of a file that is read where it is needed: an archive may be far larger than the memory.

import { Unreadable } from '../files/read.js';

/**
 * The bytes of a part of a file.
 * @param {Blob} file
 * @param {number} at
 * @param {number} length
 * @returns {Promise<Uint8Array>}
 */
export async function bytesAt(file, at, length) {
  const part = sliceOf(file, at, length);
  try {
    return new Uint8Array(await part.arrayBuffer());
  } catch {
    throw new Unreadable('the browser could not read the file');
  }
}

/**
 * A part of a file, of which nothing is read yet.
 * @param {Blob} file
 * @param {number} at
 * @param {number} length
 */
export function sliceOf(file, at, length) {
  if (!(at >= 0 && length >= 0 && at + length <= file.size)) throw new Unreadable('the archive is cut: a part of it is beyond its end');
  return file.slice(at, at + length);
}
