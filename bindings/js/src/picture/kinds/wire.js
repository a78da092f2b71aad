// What a wire fault is about: the bytes from its place on, and what they say.

import { beginField, packedNumbersBefore, readVarint } from '../../tile/fields.js';
import { knownFields, ownWireTypes, ruleOf, wireTypeName } from '../../tile/schema.js';
import { shortText } from '../words.js';

/** @typedef {import('../../tile/fields.js').Message} Message */
/** @typedef {import('../../tile/fields.js').Field} Field */
/** @typedef {import('../../tile/fields.js').WireFault} WireFault */
/** @typedef {import('../../tile/fields.js').BegunField} BegunField */
/**
 * `list` is the packed list that the place is in. `end` is where the message ends, or the list. `begun` is what can be read of a field
 * at the place.
 * @typedef {object} Scene
 * @property {Uint8Array} tile
 * @property {Message} message
 * @property {WireFault} fault
 * @property {Field[]} fields
 * @property {Field|null} list
 * @property {number} end
 * @property {BegunField} begun
 */
/**
 * The bytes from the fault's place to before `end`, and what they say.
 * @typedef {{end: number, says: string}} About
 */

const LONGEST_VARINT = 10;

/**
 * @param {Uint8Array} tile
 * @param {Message} message
 * @param {WireFault} fault
 * @param {Field[]} fields those before the fault's place
 * @returns {About & {list: Field|null}}
 */
export function aboutFault(tile, message, fault, fields) {
  const list = listAround(message, fields, fault.at), end = list ? list.end : message.end;
  const begun = beginField(tile, fault.at, end);
  return { list, ...ABOUT[fault.code]({ tile, message, fault, fields, list, end, begun }) };
}

/** @type {Record<number, (scene: Scene) => About>} */
const ABOUT = {
  101: aboutVarint, 102: aboutVarint, 103: aboutKey, 104: aboutWireType, 105: aboutLength, 106: aboutOtherType, 107: aboutAgain,
  108: aboutMissing, 109: aboutKinds, 110: aboutText, 111: aboutRange,
};

/**
 * The field with a packed list that holds a place, or null.
 * @param {Message} message
 * @param {Field[]} fields
 * @param {number} place
 * @returns {Field|null}
 */
function listAround(message, fields, place) {
  const last = fields[fields.length - 1];
  const isList = last && last.wireType === 2 && ruleOf(message.kind, last.number)?.kind === 'numbers';
  return isList && last.payload <= place && place < last.end ? last : null;
}

/**
 * The name of the fault's field.
 * @param {Scene} scene
 * @returns {string}
 */
function fieldName({ message, fault: { field } }) {
  const rule = ruleOf(message.kind, field);
  return rule ? `field ${field} (${rule.name})` : `field ${field}`;
}

/**
 * @param {number} wireType
 * @returns {string}
 */
function wireTypeText(wireType) {
  return `${wireType} (${wireTypeName(wireType)})`;
}

/**
 * @param {Scene} scene
 * @returns {About}
 */
function aboutVarint({ fault: { at, code }, list, end }) {
  const due = Math.min(end, at + LONGEST_VARINT);
  const where = list ? `the list of ${list.name}` : 'the message';
  if (code === 102) return { end: due, says: 'these ten bytes are no varint: the first nine say that more follows, and the tenth is above 1' };
  if (due === at) return { end: due, says: `a varint is due, and ${where} ends` };
  return { end: due, says: `${where} ends in this varint, whose last byte says that more follows` };
}

/**
 * @param {Scene} scene
 * @returns {About}
 */
function aboutKey({ begun: { key, keyEnd } }) {
  return { end: keyEnd, says: `the field key ${key} ${key < 8n ? 'has the field number 0' : 'is above 4294967295'}` };
}

/**
 * @param {Scene} scene
 * @returns {About}
 */
function aboutWireType(scene) {
  const { keyEnd, wireType } = scene.begun;
  return { end: keyEnd, says: `${fieldName(scene)} has wire type ${wireTypeText(wireType)}` };
}

/**
 * @param {Scene} scene
 * @returns {About}
 */
function aboutLength(scene) {
  const { payload, length } = scene.begun, left = scene.end - payload;
  return { end: scene.end, says: `${fieldName(scene)} has a payload of ${length} bytes, and ${left === 1 ? '1 is' : `${left} are`} left` };
}

/**
 * @param {Scene} scene
 * @returns {About}
 */
function aboutOtherType(scene) {
  const { wireType, end } = scene.begun, rule = ruleOf(scene.message.kind, scene.fault.field);
  const [own, ofOne] = rule ? ownWireTypes(rule) : [wireType];
  const orOne = ofOne === undefined ? '' : `, or ${wireTypeText(ofOne)} for a single number`;
  return { end, says: `${fieldName(scene)} has wire type ${wireTypeText(wireType)}, and its own is ${wireTypeText(own)}${orOne}` };
}

/**
 * @param {Scene} scene
 * @returns {About}
 */
function aboutAgain(scene) {
  return { end: scene.begun.end, says: `${fieldName(scene)} again, which occurs before` };
}

/**
 * @param {Scene} scene
 * @returns {About}
 */
function aboutMissing(scene) {
  return { end: scene.fault.at, says: `${scene.message.name} ends here, and has no ${fieldName(scene)}` };
}

/**
 * @param {Scene} scene
 * @returns {About}
 */
function aboutKinds({ message, fault: { at }, fields }) {
  const known = fields.filter(({ number }) => ruleOf(message.kind, number)).map(({ name }) => name);
  const has = known.length === 0 ? `none of ${knownFields(message.kind).join(', ')}` : known.join(' and ');
  return { end: at, says: `${message.name} ends here, and has ${has}` };
}

/**
 * @param {Scene} scene
 * @returns {About}
 */
function aboutText(scene) {
  const { payload, end } = scene.begun;
  return { end, says: `the text of ${fieldName(scene)} isn't UTF-8: ${shortText(scene.tile.subarray(payload, end))}` };
}

/**
 * @param {Scene} scene
 * @returns {About}
 */
function aboutRange(scene) {
  const { tile, message, fault: { at, field }, list, end } = scene;
  const varint = readVarint(tile, at, end) ?? { value: 0n, end: at };
  const greatest = message.kind === 'feature' && field === 3 ? '3' : '4294967295';
  const place = list ? `number ${packedNumbersBefore(tile, message, list, at, 1).count} of ${list.name}` : fieldName(scene);
  return { end: varint.end, says: `${place} is ${varint.value}, which is above ${greatest}` };
}
