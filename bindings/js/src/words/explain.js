/** Faults, advice and other formats in plain words. */
import words from './faults.js';
import { adviceInWords, faultInWords } from './fill.js';
import { formatInWords } from './formats.js';

/** @typedef {import('./fill.js').Explanation} Explanation */

/**
 * @param {import('../types.js').Fault | import('../types.js').Advice} it
 * @param {Uint8Array} [tile] that has the fault
 * @returns {import('../types.js').Explanation} TypeError where it is neither a fault nor advice
 */
export function explain(it, tile) {
  if (typeof it !== 'object' || it === null) throw new TypeError('what is explained is a fault, or one advice');
  if ('kind' in it) return { ...explainAdvice(it), format: null };
  return { ...explainFault(it), format: tile ? explainFormat(it, tile) : null };
}

/**
 * @param {import('./fill.js').Members} fault the members of a fault's text
 * @returns {Explanation} TypeError where it is no fault
 */
export function explainFault(fault) {
  return faultInWords(words, fault);
}

/**
 * @param {import('./fill.js').Members} advice one of the list under the key advice
 * @returns {Explanation} TypeError where it is no advice
 */
export function explainAdvice(advice) {
  return adviceInWords(words, advice);
}

/**
 * @param {import('./fill.js').Members} fault
 * @param {Uint8Array} tile
 * @returns {import('./formats.js').Format | null} what the bytes of a tile with this fault are, where that is known
 */
export function explainFormat(fault, tile) {
  return formatInWords(words.formats, fault, tile);
}
