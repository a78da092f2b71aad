// Records of SQLite (its file format, sections 1.6 and 2.1): a header with a number for each column, which says the kind and the size,
// and then the contents.

import { Unreadable } from '../../files/read.js';

/** A text as its bytes, in the encoding of the database. */
export class Text {
  /** @param {Uint8Array} bytes */
  constructor(bytes) {
    this.bytes = bytes;
  }
}

/** @typedef {null|number|Text|Uint8Array} Value */

const LONGEST_VARINT = 9;
const SIZES = [0, 1, 2, 3, 4, 6, 8, 8, 0, 0]; // of numbers, by their kinds
const FLOAT = 7, ZERO = 8, ONE = 9, FIRST_BYTES = 12;

/**
 * A varint, most significant byte first. Those that a double doesn't hold exactly are refused.
 * @param {DataView} view
 * @param {number} at
 * @returns {{number: number, end: number}}
 */
export function varintAt(view, at) {
  let number = 0;
  for (let place = at; ; place += 1) {
    const byte = view.getUint8(place), isLast = place - at === LONGEST_VARINT - 1;
    number = isLast ? number * 256 + byte : number * 128 + (byte % 128);
    if (number > Number.MAX_SAFE_INTEGER) throw new Unreadable('the database is damaged: a number is too large');
    if (byte < 128 || isLast) return { number, end: place + 1 };
  }
}

/**
 * @param {Uint8Array} bytes
 * @returns {Value[]}
 */
export function recordOf(bytes) {
  const view = new DataView(bytes.buffer, bytes.byteOffset, bytes.byteLength), head = varintAt(view, 0), values = [];
  let at = head.end, content = head.number;
  while (at < head.number) {
    const { number: kind, end } = varintAt(view, at), size = sizeOf(kind);
    values.push(valueAt(view, content, kind, size));
    at = end;
    content += size;
  }
  return values;
}

/** @param {number} kind */
function sizeOf(kind) {
  return kind < FIRST_BYTES ? SIZES[kind] ?? 0 : Math.floor((kind - FIRST_BYTES) / 2);
}

/**
 * @param {DataView} view
 * @param {number} at
 * @param {number} kind
 * @param {number} size
 * @returns {Value}
 */
function valueAt(view, at, kind, size) {
  if (at + size > view.byteLength) throw new RangeError('a value is beyond the end of its record');
  if (kind >= FIRST_BYTES) {
    const bytes = new Uint8Array(view.buffer, view.byteOffset + at, size);
    return kind % 2 ? new Text(bytes) : bytes;
  }
  if (kind === FLOAT) return view.getFloat64(at);
  if (kind === ZERO || kind === ONE) return kind - ZERO;
  return size === 0 ? null : wholeAt(view, at, size);
}

/**
 * A number in two's complement.
 * @param {DataView} view
 * @param {number} at
 * @param {number} size
 */
function wholeAt(view, at, size) {
  let number = view.getInt8(at);
  for (let place = at + 1; place < at + size; place += 1) number = number * 256 + view.getUint8(place);
  return number;
}

/**
 * The order of values: nothing, numbers, texts, bytes; texts and bytes by their bytes.
 * @param {Value} one
 * @param {Value} other
 * @returns {number} below, at or above 0
 */
export function compared(one, other) {
  const rank = rankOf(one), difference = rank - rankOf(other);
  if (difference || rank === 0) return difference;
  if (typeof one === 'number' && typeof other === 'number') return one - other;
  return comparedBytes(bytesOf(one), bytesOf(other));
}

/** @param {Value} value */
function rankOf(value) {
  if (value === null) return 0;
  if (typeof value === 'number') return 1;
  return value instanceof Text ? 2 : 3;
}

/**
 * The bytes of a text or of bytes; none of other values.
 * @param {Value|undefined} value
 */
export function bytesOf(value) {
  if (value instanceof Text) return value.bytes;
  return value instanceof Uint8Array ? value : new Uint8Array();
}

/**
 * @param {Uint8Array} one
 * @param {Uint8Array} other
 */
function comparedBytes(one, other) {
  const length = Math.min(one.length, other.length);
  for (let at = 0; at < length; at += 1) if (one[at] !== other[at]) return one[at] - other[at];
  return one.length - other.length;
}

/**
 * The order of a record beside the first values of a key.
 * @param {Value[]} record
 * @param {Value[]} key
 */
export function comparedToKey(record, key) {
  const at = key.findIndex((value, place) => compared(record[place] ?? null, value) !== 0);
  return at < 0 ? 0 : compared(record[at] ?? null, key[at]);
}
