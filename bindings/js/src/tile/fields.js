// The fields of a message's bytes (Protocol Buffers encoding), for the picture of a wire fault: which message the fault is in, which
// fields can be read up to its place, and where reading ends.

import { Cursor } from './cursor.js';
import { ruleOf } from './schema.js';

/** @typedef {import('./schema.js').MessageKind} MessageKind */
/**
 * A message: its bytes from `begin` to before `end`. One that is within another has its field key at `at` of that.
 * @typedef {{kind: MessageKind, name: string, at: number, begin: number, end: number, outer: Message|null}} Message
 */
/**
 * A field that was read whole. Its key is at `at`, its payload from `payload` to before `end`; of wire type 2 the length is in between,
 * from `keyEnd` on.
 * @typedef {object} Field
 * @property {number} at
 * @property {number} keyEnd
 * @property {number} payload
 * @property {number} end
 * @property {number} number
 * @property {number} wireType
 * @property {string} name by the schema, or 'field N'
 * @property {bigint|null} varint the value of a payload of wire type 0
 */
/** @typedef {{code: number, at: number, field: number, scope: MessageKind, layer?: number, feature?: number, value?: number}} WireFault */

/**
 * The varint at a place, or null where none is there before the end.
 * @param {Uint8Array} bytes
 * @param {number} at
 * @param {number} end
 * @returns {{value: bigint, end: number}|null}
 */
export function readVarint(bytes, at, end) {
  let low = 0, place = at, weight = 1; // the lowest 49 bits as a double, which holds them exactly
  for (; place < end && place - at < 7; place += 1, weight *= 128) {
    low += (bytes[place] % 128) * weight;
    if (bytes[place] < 128) return { value: BigInt(low), end: place + 1 };
  }
  let value = BigInt(low), shift = 49n;
  for (; place < end && place - at < 10; place += 1, shift += 7n) {
    value += BigInt(bytes[place] % 128) << shift;
    if (bytes[place] < 128) return value < 1n << 64n ? { value, end: place + 1 } : null;
  }
  return null;
}

/**
 * What can be read of a field that begins at a place, whether or not it is one: its key, and its payload from `payload` to before
 * `end`, which may be past the end of the message. Where no varint is, the key or the length counts as 0.
 * @typedef {object} BegunField
 * @property {bigint} key
 * @property {number} keyEnd
 * @property {number} wireType
 * @property {number} payload
 * @property {number} end
 * @property {bigint} length of the payload
 * @property {bigint|null} varint the value of a payload of wire type 0
 * @property {boolean} isRead whether the key, and a varint that is the payload or its length, are there
 */

/**
 * @param {Uint8Array} bytes
 * @param {number} at
 * @param {number} end of the message
 * @returns {BegunField}
 */
export function beginField(bytes, at, end) {
  const key = readVarint(bytes, at, end) ?? { value: 0n, end: at };
  const wireType = Number(key.value % 8n);
  const varint = wireType === 0 || wireType === 2 ? readVarint(bytes, key.end, end) : null;
  const begun = { key: key.value, keyEnd: key.end, wireType, payload: key.end, varint: wireType === 0 && varint ? varint.value : null };
  const isRead = key.end > at && (varint !== null || wireType === 1 || wireType === 5);
  if (wireType === 2 && varint) return { ...begun, payload: varint.end, end: varint.end + Number(varint.value), length: varint.value, isRead };
  const length = wireType === 1 ? 8 : wireType === 5 ? 4 : varint ? varint.end - key.end : 0;
  return { ...begun, end: key.end + length, length: BigInt(length), isRead };
}

/**
 * The field at a place of a message, or null where none can be read there.
 * @param {Uint8Array} bytes
 * @param {number} at
 * @param {number} end
 * @param {MessageKind} message
 * @returns {Field|null}
 */
export function readField(bytes, at, end, message) {
  const { key, keyEnd, wireType, payload, varint, end: fieldEnd, isRead } = beginField(bytes, at, end);
  if (!isRead || key >= 1n << 32n || key < 8n || fieldEnd > end) return null;
  const number = Math.floor(Number(key) / 8);
  return { at, keyEnd, payload, end: fieldEnd, number, wireType, name: ruleOf(message, number)?.name ?? `field ${number}`, varint };
}

/**
 * The message that a wire fault is in, or null where the tile has none such.
 * @param {Uint8Array} tile
 * @param {WireFault} fault
 * @returns {Message|null}
 */
export function messageOfFault(tile, fault) {
  const whole = /** @type {Message} */ ({ kind: 'tile', name: 'the tile', at: 0, begin: 0, end: tile.length, outer: null });
  if (fault.scope === 'tile') return whole;
  const layer = findMessage(tile, whole, { kind: 'layer', field: 3, ordinal: fault.layer ?? 0, name: `layer ${fault.layer}` });
  if (fault.scope === 'layer' || !layer) return layer;
  const isValue = fault.scope === 'value';
  const ordinal = (isValue ? fault.value : fault.feature) ?? 0;
  return findMessage(tile, layer, { kind: fault.scope, field: isValue ? 4 : 2, ordinal, name: `${fault.scope} ${ordinal} of ${layer.name}` });
}

/**
 * The bytes of a layer's name, or null where it has none that can be read.
 * @param {Uint8Array} bytes
 * @param {Message} layer
 * @returns {Uint8Array|null}
 */
export function layerName(bytes, layer) {
  const cursor = new Cursor(bytes, layer);
  while (cursor.read()) {
    if (cursor.number !== 1 || cursor.wireType !== 2) continue;
    const { payload, end } = beginField(bytes, cursor.at, layer.end);
    return bytes.subarray(payload, end);
  }
  return null;
}

/**
 * @param {Uint8Array} bytes
 * @param {Message} outer
 * @param {{kind: MessageKind, field: number, ordinal: number, name: string}} wanted
 * @returns {Message|null}
 */
function findMessage(bytes, outer, { kind, field: number, ordinal, name }) {
  const cursor = new Cursor(bytes, outer);
  let before = 0;
  while (cursor.read()) {
    if (cursor.number !== number || cursor.wireType !== 2) continue;
    if (before === ordinal) {
      const { payload, end } = beginField(bytes, cursor.at, outer.end);
      return { kind, name, at: cursor.at, begin: payload, end, outer };
    }
    before += 1;
  }
  return null;
}

/**
 * The fields of a message that begin before a place, the last `most` of them, and how many more there are before these. `stop` is where
 * the next one would begin.
 * @param {Uint8Array} bytes
 * @param {Message} message
 * @param {number} place
 * @param {number} most
 * @returns {{fields: Field[], omitted: number, stop: number}}
 */
export function fieldsBefore(bytes, message, place, most) {
  const cursor = new Cursor(bytes, message), last = new Float64Array(most); // where the last fields begin, by their ordinals modulo `most`
  let count = 0;
  while (cursor.next < place && cursor.read()) {
    last[count % most] = cursor.at;
    count += 1;
  }
  const omitted = Math.max(0, count - most);
  const fields = Array.from({ length: count - omitted }, (_, k) => readField(bytes, last[(omitted + k) % most], message.end, message.kind));
  return { fields: fields.flatMap((field) => field ?? []), omitted, stop: cursor.next };
}

/**
 * How many numbers of a list are in the fields of its message before one of them. They are varints, as they are before the place of a
 * fault.
 * @param {Uint8Array} bytes
 * @param {Message} message
 * @param {Field} list
 */
function numbersBefore(bytes, message, list) {
  const cursor = new Cursor(bytes, message);
  let count = 0;
  while (cursor.next < list.at && cursor.read()) {
    if (cursor.number !== list.number) continue;
    for (let at = cursor.payload; at < cursor.next; at += 1) if (bytes[at] < 128) count += 1; // (the last byte of each)
  }
  return count;
}

/**
 * The numbers of a packed list that begin before a place, the last `most` of them with their indices, and how many of the list come
 * before the place: the list may begin in earlier fields of the message.
 * @param {Uint8Array} bytes
 * @param {Message} message
 * @param {Field} field
 * @param {number} place
 * @param {number} most
 * @returns {{numbers: {at: number, end: number, value: bigint, index: number}[], count: number}}
 */
export function packedNumbersBefore(bytes, message, field, place, most) {
  const last = new Float64Array(most); // where the last numbers begin, by their indices modulo `most`
  let count = 0, begin = field.payload;
  for (let at = field.payload; at < Math.min(place, field.end); at += 1) {
    if (bytes[at] >= 128) continue;
    last[count % most] = begin;
    count += 1;
    begin = at + 1;
  }
  const first = Math.max(0, count - most), earlier = numbersBefore(bytes, message, field);
  const numbers = Array.from({ length: count - first }, (_, k) => {
    const at = last[(first + k) % most];
    const { value, end } = readVarint(bytes, at, field.end) ?? { value: 0n, end: at };
    return { at, end, value, index: earlier + first + k };
  });
  return { numbers, count: earlier + count };
}
