// The numbers of a feature's lists, tags and geometry. A list may be in several fields, in each packed or as a single number: its numbers
// are those of all these fields, joined in their order (Protocol Buffers encoding).

import { meaningDue, passNumber, textOfNumber } from '../../../../bindings/js/src/tile/commands.js';
import { Cursor } from '../../../../bindings/js/src/tile/cursor.js';
import { ownWireTypes, ruleOf } from '../../../../bindings/js/src/tile/schema.js';

/** @typedef {import('../../../../bindings/js/src/tile/schema.js').MessageKind} MessageKind */
/**
 * How far a list has been read: how many numbers came before, and of a geometry what is due.
 * @typedef {{number: number, count: number} & import('../../../../bindings/js/src/tile/commands.js').Walk} Progress `number` of its field
 */

const TAGS = 2;
const GREATEST_NUMBER = 2 ** 32 - 1;

/**
 * Goes past a number.
 * @param {Progress} progress
 * @param {number} number
 */
export function goPast(progress, number) {
  if (number > GREATEST_NUMBER && progress.due === 0) progress.isLost = true;
  else passNumber(progress, number);
  progress.count += 1;
}

/**
 * A number of a list and what it means: a key or a value of tags, a command or a part of a step of a geometry.
 * @param {bigint} number
 * @param {Progress} progress before it
 * @returns {string}
 */
export function textOf(number, progress) {
  const text = number > GREATEST_NUMBER ? `above ${GREATEST_NUMBER}` : meaningOf(Number(number), progress);
  return text ? `${number}: ${text}` : String(number);
}

/**
 * @param {number} number
 * @param {Progress} progress
 */
function meaningOf(number, progress) {
  if (progress.number === TAGS) return `${progress.count % 2 ? 'value' : 'key'} ${number}`;
  return textOfNumber(number, meaningDue(progress));
}

/** The lists of a message, of which only those fields are read that come before one that is asked for. */
export class Lists {
  #bytes;
  #message;
  #within;
  /** @type {Map<number, {progress: Progress, cursor: Cursor}>} */
  #read = new Map();

  /**
   * @param {Uint8Array} bytes
   * @param {{begin: number, end: number}} message
   * @param {MessageKind} within
   */
  constructor(bytes, message, within) {
    this.#bytes = bytes;
    this.#message = message;
    this.#within = within;
  }

  /**
   * How far a list has been read before a place, which is no earlier than the last one that was asked for.
   * @param {number} number of the list's field
   * @param {number} place
   * @returns {Progress}
   */
  before(number, place) {
    const list = this.#read.get(number) ?? { progress: { number, count: 0, due: 0, isLost: false }, cursor: new Cursor(this.#bytes, this.#message) };
    this.#read.set(number, list);
    while (list.cursor.next < place && list.cursor.read()) if (list.cursor.number === number) this.#goPast(list);
    return { ...list.progress };
  }

  /** @param {{progress: Progress, cursor: Cursor}} list whose cursor is at one of its fields */
  #goPast({ progress, cursor: { number, wireType, payload, next } }) {
    const rule = ruleOf(this.#within, number);
    if (!rule || !ownWireTypes(rule).includes(wireType)) return;
    const numbers = new Cursor(this.#bytes, { begin: payload, end: next });
    for (let it = numbers.readNumber(); it >= 0; it = numbers.readNumber()) goPast(progress, it);
  }
}
