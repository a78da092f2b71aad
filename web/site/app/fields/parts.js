// The parts of a tile's bytes: fields in messages, numbers in packed lists, and what can't be read. Only those are made that are asked
// for: a message may have millions.

import { Cursor } from '../../../../bindings/js/src/tile/cursor.js';
import { beginField } from '../../../../bindings/js/src/tile/fields.js';
import { ownWireTypes, ruleOf } from '../../../../bindings/js/src/tile/schema.js';
import { Lists, goPast } from './lists.js';

/** @typedef {import('../../../../bindings/js/src/tile/schema.js').MessageKind} MessageKind */
/**
 * A field has its key from `at` on, of wire type 2 the length from `keyEnd` on, and its payload from `payload` to before `end`. A number
 * of a list is a payload alone.
 * @typedef {object} Part
 * @property {'field'|'number'|'unread'} is
 * @property {number} index among the parts of what it is in
 * @property {number} at
 * @property {number} keyEnd
 * @property {number} payload
 * @property {number} end
 * @property {number} number of the field, or of the field whose list it is in
 * @property {number} wireType
 * @property {boolean} isOwn whether the wire type is one that the field may have
 * @property {number} ordinal among the fields with its number and its wire type
 * @property {MessageKind|null} message which its payload is
 * @property {boolean} isList whether its payload is a packed list of numbers
 * @property {import('./lists.js').Progress|null} progress of its list before it, where it has numbers or is one
 * @property {MessageKind} within the message that it is in
 */
/** @typedef {(index: number, at: number, end: number) => boolean} Test */
/** @typedef {{parts: Part[], count: number}} Found parts, and how many there are in all */

/** @type {{[kind in MessageKind]: Record<number, MessageKind>}} */
const MESSAGES = { tile: { 3: 'layer' }, layer: { 2: 'feature', 4: 'value' }, feature: {}, value: {} };
const DELIMITED = 2;

/**
 * The whole tile as a part.
 * @param {Uint8Array} bytes
 * @returns {Part}
 */
export function wholeOf(bytes) {
  return {
    is: 'field', index: 0, at: 0, keyEnd: 0, payload: 0, end: bytes.length, number: 0, wireType: DELIMITED, isOwn: true, ordinal: 0,
    message: 'tile', isList: false, progress: null, within: 'tile',
  };
}

/**
 * Whether a part may have parts.
 * @param {Part} part
 */
export function hasParts({ message, isList, payload, end }) {
  return (message !== null || isList) && payload < end;
}

/**
 * Parts of a part, from the first one on.
 * @param {Uint8Array} bytes
 * @param {Part} part
 * @param {number} first
 * @param {number} most
 * @returns {Found}
 */
export function partsOf(bytes, part, first, most) {
  return found(bytes, part, (index) => index >= first && index < first + most);
}

/**
 * The parts that hold a byte, from the whole tile to the innermost one. The key and the length of a field are the field's own.
 * @param {Uint8Array} bytes
 * @param {number} place
 * @returns {Part[]}
 */
export function pathTo(bytes, place) {
  const path = [wholeOf(bytes)];
  for (let part = /** @type {Part|undefined} */ (path[0]); part && place >= part.payload && hasParts(part); ) {
    [part] = found(bytes, part, (_, at, end) => at <= place && place < end).parts;
    if (part) path.push(part);
  }
  return path;
}

/**
 * @param {Uint8Array} bytes
 * @param {Part} part
 * @param {Test} isWanted
 * @returns {Found}
 */
function found(bytes, part, isWanted) {
  const collected = part.message ? fieldsIn(bytes, part, part.message, isWanted) : numbersIn(bytes, part, isWanted);
  const { parts, count, stop } = collected;
  if (stop === part.end) return { parts, count };
  const unread = { ...wholeOf(bytes), is: /** @type {const} */ ('unread'), index: count, at: stop, keyEnd: stop, payload: stop, end: part.end, message: null, within: part.message ?? part.within };
  return { parts: isWanted(count, stop, part.end) ? [...parts, unread] : parts, count: count + 1 };
}

/**
 * @param {Uint8Array} bytes
 * @param {Part} part
 * @param {MessageKind} within
 * @param {Test} isWanted
 * @returns {Found & {stop: number}} and where no field can be read any more
 */
function fieldsIn(bytes, part, within, isWanted) {
  const message = { begin: part.payload, end: part.end }, cursor = new Cursor(bytes, message), lists = new Lists(bytes, message, within), parts = [];
  /** @type {Map<number, number>} how many fields there were with a number and a wire type, by both */
  const counts = new Map();
  let count = 0;
  while (cursor.read()) {
    const key = 8 * cursor.number + cursor.wireType, ordinal = counts.get(key) ?? 0;
    counts.set(key, ordinal + 1);
    if (isWanted(count, cursor.at, cursor.next)) parts.push(fieldAt(cursor, within, lists, { index: count, ordinal }));
    count += 1;
  }
  return { parts, count, stop: cursor.next };
}

/**
 * @param {Cursor} cursor that has read the field
 * @param {MessageKind} within
 * @param {Lists} lists of the message
 * @param {{index: number, ordinal: number}} place among its fields
 * @returns {Part}
 */
function fieldAt({ bytes, at, end, next, payload, number, wireType }, within, lists, place) {
  const rule = ruleOf(within, number), isOwn = rule !== null && ownWireTypes(rule).includes(wireType), isDelimited = wireType === DELIMITED;
  const progress = isOwn && rule.kind === 'numbers' ? lists.before(number, at) : null;
  return {
    is: 'field', ...place, at, keyEnd: beginField(bytes, at, end).keyEnd, payload, end: next, number, wireType, isOwn,
    message: isOwn && isDelimited ? MESSAGES[within][number] ?? null : null, isList: progress !== null && isDelimited, progress, within,
  };
}

/**
 * @param {Uint8Array} bytes
 * @param {Part} list
 * @param {Test} isWanted
 * @returns {Found & {stop: number}}
 */
function numbersIn(bytes, list, isWanted) {
  const cursor = new Cursor(bytes, { begin: list.payload, end: list.end }), parts = [];
  const progress = { number: list.number, count: 0, due: 0, isLost: false, ...list.progress };
  let count = 0;
  for (let it = cursor.readNumber(); it >= 0; it = cursor.readNumber()) {
    const { at, next: end } = cursor;
    if (isWanted(count, at, end)) {
      parts.push({ ...list, is: /** @type {const} */ ('number'), index: count, at, keyEnd: at, payload: at, end, isList: false, progress: { ...progress } });
    }
    goPast(progress, it);
    count += 1;
  }
  return { parts, count, stop: cursor.next };
}
