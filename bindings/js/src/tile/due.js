// What is due at a place of a geometry's numbers, where all before it is as it has to be.

import { CLOSE_PATH, LINESTRING, LINE_TO, MOVE_TO, POINT, POLYGON, commandOf } from './commands.js';

/** @typedef {'MoveTo'|'LineTo'|'ClosePath'|'x'|'y'|'nothing'} Due */

/** @type {Record<number, Record<number, Due>>} what comes after the steps of a command, by the geometry's type */
const AFTER = {
  [POINT]: { 0: 'MoveTo', [MOVE_TO]: 'nothing' },
  [LINESTRING]: { 0: 'MoveTo', [MOVE_TO]: 'LineTo', [LINE_TO]: 'MoveTo' },
  [POLYGON]: { 0: 'MoveTo', [MOVE_TO]: 'LineTo', [LINE_TO]: 'ClosePath', [CLOSE_PATH]: 'MoveTo' },
};

/**
 * @param {ArrayLike<number>} numbers
 * @param {number} type POINT, LINESTRING or POLYGON
 * @param {number} index
 * @returns {Due}
 */
export function dueAt(numbers, type, index) {
  let at = 0, last = 0;
  while (at < index) {
    const { id, count } = commandOf(numbers[at]);
    const end = at + 1 + (id === CLOSE_PATH ? 0 : 2 * count);
    if (index < end) return (index - at) % 2 === 1 ? 'x' : 'y';
    [at, last] = [end, id];
  }
  return AFTER[type]?.[last] ?? 'nothing';
}

/**
 * The counts that a command may have, in words.
 * @param {Due} due
 * @param {number} type
 * @returns {string}
 */
export function allowedCount(due, type) {
  if (due === 'LineTo') return type === POLYGON ? 'at least 2' : 'at least 1';
  return due === 'MoveTo' && type === POINT ? 'at least 1' : '1';
}

/**
 * The place of the command that a number is, or is a parameter of; of the list's end, the last command.
 * @param {ArrayLike<number>} numbers
 * @param {number} index
 * @returns {number} -1 where there is none
 */
export function commandAround(numbers, index) {
  let at = -1, next = 0;
  while (next <= index && next < numbers.length) {
    const { id, count } = commandOf(numbers[next]);
    [at, next] = [next, next + 1 + (id === CLOSE_PATH ? 0 : 2 * count)];
  }
  return at;
}
