// What is said of a mended tile.

import { counted, digits } from '../tools/text.js';

/** @typedef {import('../../../../bindings/js/src/types.js').Change} Change */

/** The faults of which some are mended: those of rings and polygons, and of commands that draw a ring. */
const MENDABLE = new Set([402, 406, 501, 502, 503, 504, 505, 506, 507]);

/**
 * Whether a tile whose first fault has this code may be mended.
 * @param {import('../files/checks.js').Fault|null} fault
 */
export function isMendable(fault) {
  return fault !== null && MENDABLE.has(fault.code);
}

/**
 * The half of a whole number, exactly.
 * @param {string} doubled in decimal digits
 */
export function halfText(doubled) {
  const number = BigInt(doubled), size = number < 0n ? -number : number;
  return `${number < 0n ? '-' : ''}${(size / 2n).toLocaleString('en')}${size % 2n ? '.5' : ''}`;
}

/**
 * How much of an area went or came, in percent of what was there; empty where nothing was.
 * @param {[string, string]} areas doubled
 */
export function shareText([before, after]) {
  if (BigInt(before) === 0n) return '';
  const share = 100 * (Number(BigInt(after) - BigInt(before)) / Math.abs(Number(BigInt(before))));
  if (share === 0) return '0 %';
  return Math.abs(share) < 0.01 ? 'less than 0.01 %' : `${share < 0 ? '−' : '+'}${Math.abs(share).toFixed(2)} %`;
}

/**
 * A change in a line.
 * @param {Change} change
 * @returns {{title: string, more: string}}
 */
export function changeLine(change) {
  const title = `Feature ${change.feature} of layer ${change.layer}: ${change.what === 'dropped' ? 'left out' : 'mended'}`;
  if (change.what === 'dropped') return { title, more: '' };
  const share = shareText(change.area);
  return { title, more: `${share ? `area by ${share}, ` : ''}${counted(change.vertices[0], 'vertex', 'vertices')} became ${digits(change.vertices[1])}` };
}

/**
 * The rows of what is known of a change.
 * @param {Change} change
 * @returns {[string, string][]}
 */
export function changeFacts(change) {
  if (change.what === 'dropped') return [['What became of it', "it couldn't be mended and is left out"]];
  const pair = (/** @type {[number, number]} */ [before, after]) => `${digits(before)}, now ${digits(after)}`;
  const share = shareText(change.area);
  return [
    ['Area', `${halfText(change.area[0])}, now ${halfText(change.area[1])}${share ? ` (${share})` : ''}`],
    ['Polygons', pair(change.polygons)],
    ['Vertices', pair(change.vertices)],
    ['Crossings that were rounded to a position', digits(change.crossings)],
    ['Corners that were cut', digits(change.cuts)],
  ];
}

/**
 * How many features were mended, and how many left out.
 * @param {Change[]} changed
 */
export function summaryOf(changed) {
  const dropped = changed.filter(({ what }) => what === 'dropped').length, mended = changed.length - dropped;
  const parts = [...(mended ? [`${counted(mended, 'feature')} mended`] : []), ...(dropped ? [`${counted(dropped, 'feature')} left out`] : [])];
  return `${parts.join(' and ')}. All else is byte for byte as it was.`;
}
