// What is said of a file, and of all of them.

import { explainFault } from '../../../../bindings/js/src/words/explain.js';
import words from '../../../../bindings/js/src/words/faults.js';
import { counted, digits, listed } from '../tools/text.js';

/** @typedef {import('./checks.js').Entry} Entry */

/**
 * A verdict in a line.
 * @param {Entry} entry
 */
export function verdictText(entry) {
  switch (entry.state) {
    case 'waiting': return 'waiting';
    case 'checking': return 'checking';
    case 'valid': return 'valid';
    case 'stopped': return 'stopped';
    case 'unreadable': return `couldn't be read: ${entry.reason}`;
    default: return entry.fault ? faultText(entry.fault, entry.format) : '';
  }
}

/** @param {number} code of a fault */
export function explainTitle(code) {
  return words.faults[/** @type {keyof typeof words.faults} */ (String(code))].title;
}

/**
 * @param {import('./checks.js').Fault} fault
 * @param {import('./checks.js').Format|null} format
 */
function faultText(fault, format) {
  return `${fault.code}: ${explainFault(fault).title}${format ? ` (${format.title})` : ''}`;
}

/**
 * How many files there are, and of each kind of verdict.
 * @param {import('./checks.js').Counts} counts
 */
export function totalsText(counts) {
  const parts = /** @type {[number, string][]} */ ([
    [counts.valid, 'valid'],
    [counts.fault, 'with a fault'],
    [counts.unreadable, "couldn't be read"],
    [counts.stopped, 'stopped'],
    [counts.waiting + counts.checking, 'to be checked'],
  ]);
  const said = parts.filter(([number]) => number).map(([number, words]) => `${digits(number)} ${words}`);
  return `${counted(parts.reduce((sum, [number]) => sum + number, 0), 'file')}: ${listed(said)}.`;
}
