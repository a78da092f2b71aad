// The bytes of a file.

import { digits } from '../tools/text.js';
import { TILE_LIMIT } from './limits.js';

/** A file that can't be read, with a sentence that says why. */
export class Unreadable extends Error {}

/**
 * The bytes of a file, read where they aren't too many.
 * @param {Blob} file
 * @returns {Promise<Uint8Array>}
 */
export async function readFile(file) {
  if (file.size > TILE_LIMIT) {
    throw new Unreadable(`the file has ${digits(file.size)} bytes, and the limit is ${digits(TILE_LIMIT)}`);
  }
  try {
    return new Uint8Array(await file.arrayBuffer());
  } catch {
    throw new Unreadable('the browser could not read the file');
  }
}
