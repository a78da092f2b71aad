// A mended tile as a file: its name, and its bytes packed as they came.

import { pack, packingOf } from '../files/packing.js';

/** @typedef {import('../files/checks.js').Entry} Entry */

/**
 * The name of a file, or of a tile of an archive as a file.
 * @param {Pick<Entry, 'name'|'place'>} entry
 */
export function fileNameOf({ name, place }) {
  return place ? `${place.archive}/${place.zoom}/${place.column}/${place.row}.mvt` : name;
}

/**
 * A name without its ending, and that: '.mvt' or '.mvt.gz'. Numbers that follow points are none: they may be the tile's place.
 * @param {string} name of a file, with its folders or without
 */
export function splitName(name) {
  const [, stem, ending] = /^(.*?)((?:\.[a-z][^./]*)?(?:\.gz)?)$/is.exec(name) ?? ['', name, ''];
  return { stem, ending };
}

/**
 * 'tile.mvt.gz' becomes 'tile.mended.mvt.gz'.
 * @param {string} name of a file, with its folders or without
 */
export function mendedName(name) {
  const { stem, ending } = splitName(name.split('/').pop() ?? '');
  return `${stem || 'tile'}.mended${ending || '.mvt'}`;
}

/**
 * Bytes packed as a file is.
 * @param {Blob} file
 * @param {Uint8Array} bytes
 */
export async function packedAs(file, bytes) {
  const packing = packingOf(new Uint8Array(await file.slice(0, 2).arrayBuffer()));
  return packing ? pack(bytes, packing) : bytes;
}
