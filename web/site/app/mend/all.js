// Mends all files that can be mended, into an archive.

import { Stopped } from '../../../../bindings/js/src/gate/errors.js';
import { reasonOf } from '../files/checks.js';
import { zip } from '../files/zip.js';
import { fileNameOf, packedAs, splitName } from './file.js';
import { counted, digits } from '../tools/text.js';

/** @typedef {import('../files/checks.js').Entry} Entry */
/** @typedef {import('../files/checks.js').Checks} Checks */
/** @typedef {import('../../../../bindings/js/src/gate/remote.js').RemoteGate} RemoteGate */
/** @typedef {import('../files/zip.js').Member} Member */

/**
 * Mends the files with a fault. Those that can't be mended are left out, and those that can't be read.
 * @param {Checks} checks
 * @param {Pick<RemoteGate, 'mend'>} gate
 * @param {boolean} drop whether features that can't be mended are left out
 * @param {(sentence: string) => void} say what goes on
 * @param {AbortSignal} signal ends it between two calls of the gate; one that goes on is ended by stopping the gate
 * @returns {Promise<{archive: Blob|null, sentence: string}>} no archive where nothing was mended
 */
export async function mendAll(checks, gate, drop, say, signal) {
  const faulty = checks.entries.filter(({ state }) => state === 'fault');
  const members = /** @type {Member[]} */ ([]), names = new Set(), errors = /** @type {unknown[]} */ ([]);
  for (const [at, entry] of faulty.entries()) {
    say(`Mending ${digits(at + 1)} of ${counted(faulty.length, 'file')} ..`);
    try {
      const bytes = await mendedBytes(checks, gate, entry, drop, signal);
      if (bytes) members.push({ name: nameAmong(names, fileNameOf(entry)), bytes });
    } catch (error) {
      if (error instanceof Stopped) throw error;
      errors.push(error);
    }
  }
  return { archive: members.length ? zip(members) : null, sentence: sentenceOf(faulty.length, members.length, errors) };
}

/**
 * A file's mended tile, packed as it came; null where it can't be mended.
 * @param {Checks} checks
 * @param {Pick<RemoteGate, 'mend'>} gate
 * @param {Entry} entry
 * @param {boolean} drop
 * @param {AbortSignal} signal
 */
async function mendedBytes(checks, gate, entry, drop, signal) {
  const given = await checks.tileOf(entry);
  signal.throwIfAborted();
  const { tile } = await gate.mend(given, checks.profile, drop), bytes = tile && await packedAs(entry.file, tile);
  signal.throwIfAborted();
  return bytes;
}

/**
 * @param {number} faulty how many files have a fault
 * @param {number} mended
 * @param {unknown[]} errors of files for which there was no answer
 */
function sentenceOf(faulty, mended, errors) {
  const rest = faulty - mended - errors.length;
  const left = rest ? ` ${counted(rest, 'file')} can't be mended.` : '';
  const lost = errors.length ? ` There was no answer for ${counted(errors.length, 'file')}: ${reasonOf(errors[0])}.` : '';
  return `${counted(mended, 'mended tile')} of ${counted(faulty, 'file')} with a fault.${left}${lost}`;
}

/**
 * The name of a file in an archive: relative, with no step up, and not one of those before it.
 * @param {Set<string>} names to which it is added
 * @param {string} name
 */
export function nameAmong(names, name) {
  const parts = name.replaceAll('\\', '/').split('/').filter((part) => part !== '' && part !== '.').map((part) => (part === '..' ? '_' : part));
  const wanted = parts.join('/') || 'tile.mvt', { stem, ending } = splitName(wanted);
  let found = wanted;
  for (let count = 2; names.has(found); count += 1) found = `${stem} (${count})${ending}`;
  names.add(found);
  return found;
}
