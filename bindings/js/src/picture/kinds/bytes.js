// The picture of a wire fault (101 to 111): the bytes around its place, and the fields that were read up to there.

import { fieldsBefore, layerName, messageOfFault, packedNumbersBefore } from '../../tile/fields.js';
import { ruleOf, wireTypeName } from '../../tile/schema.js';
import { byteStrip } from '../strip/bytes.js';
import { aboutFault } from './wire.js';
import { counted, shortText } from '../words.js';

/** @typedef {import('../types.js').Picture} Picture */
/** @typedef {import('../../tile/fields.js').WireFault} WireFault */
/** @typedef {import('../../tile/fields.js').Field} Field */
/** @typedef {import('../../tile/fields.js').Message} Message */
/** @typedef {import('../strip/bytes.js').Span} Span */

const MOST_SPANS = 120; // fields, and numbers of a list, that may be seen
const MOST_PLACES = 24; // of them in the table

/**
 * @param {WireFault} fault
 * @param {Uint8Array} tile
 * @returns {Picture|null}
 */
export function pictureOfBytes(fault, tile) {
  const message = messageOfFault(tile, fault);
  if (!message) return null;
  const { fields, omitted } = fieldsBefore(tile, message, fault.at, MOST_SPANS);
  const { list, end: faultEnd, says } = aboutFault(tile, message, fault, fields);
  const read = [...fields.map((field) => fieldSpan(tile, message, field, list)), ...(list ? numberSpans(tile, message, list, fault.at) : [])];
  return {
    kind: 'bytes', title: 'The bytes around the fault',
    words: `${sentence(rangeText(message))}. At byte ${fault.at}: ${says}.`,
    places: [
      { name: 'message', text: rangeText(message) },
      ...namePlaces(tile, message.kind === 'layer' ? message : message.outer),
      { name: `fault, byte ${fault.at}`, text: says },
      ...(omitted || read.length > MOST_PLACES ? [{ name: 'before these', text: 'more fields or numbers' }] : []),
      ...read.slice(-MOST_PLACES).map((span) => ({ name: `byte ${span.at}`, text: span.says })),
    ],
    plane: null, box: null, close: null, tile: null,
    strip: byteStrip(tile, { message, at: fault.at, spans: [...outerSpans(message), ...read], faultEnd }),
  };
}

/**
 * @param {Uint8Array} tile
 * @param {Message|null} layer
 * @returns {import('../types.js').Place[]}
 */
function namePlaces(tile, layer) {
  const name = layer && layer.kind === 'layer' ? layerName(tile, layer) : null;
  return name ? [{ name: 'name of the layer', text: shortText(name) }] : [];
}

/**
 * @param {string} text
 * @returns {string}
 */
function sentence(text) {
  return text[0].toUpperCase() + text.slice(1);
}

/**
 * @param {Message} message
 * @returns {string}
 */
function rangeText({ name, begin, end }) {
  if (begin === end) return `${name} has no bytes, at ${begin}`;
  return begin + 1 === end ? `${name} is byte ${begin}` : `${name} is bytes ${begin} to ${end - 1}`;
}

/**
 * The field keys and lengths of the message and of what it is within.
 * @param {Message} message
 * @returns {Span[]}
 */
function outerSpans({ name, at, begin, outer }) {
  if (!outer) return [];
  return [...outerSpans(outer), { at, end: begin, label: name.split(' of ')[0], says: name, kind: 'outer' }];
}

/**
 * @param {Uint8Array} tile
 * @param {Message} message
 * @param {Field} field
 * @param {Field|null} list whose numbers have spans of their own
 * @returns {Span}
 */
function fieldSpan(tile, message, field, list) {
  const rule = ruleOf(message.kind, field.number);
  return {
    at: field.at, end: field === list ? field.payload : field.end, label: field.name, kind: 'field',
    says: `field ${field.number}${rule ? ` (${rule.name})` : ', unknown'}, ${wireTypeName(field.wireType)}: ${valueText(tile, message, field)}`,
  };
}

/**
 * @param {Uint8Array} tile
 * @param {Message} message
 * @param {Field} field
 * @returns {string}
 */
function valueText(tile, message, field) {
  if (field.varint !== null) return String(field.varint);
  const payload = tile.subarray(field.payload, field.end);
  return ruleOf(message.kind, field.number)?.kind === 'text' ? shortText(payload) : counted(payload.length, 'byte', 'bytes');
}

/**
 * @param {Uint8Array} tile
 * @param {Message} message
 * @param {Field} list
 * @param {number} place
 * @returns {Span[]}
 */
function numberSpans(tile, message, list, place) {
  return packedNumbersBefore(tile, message, list, place, MOST_SPANS).numbers
    .map(({ at, end, value, index }) => ({ at, end, label: String(value), says: `number ${index} of ${list.name}: ${value}`, kind: 'field' }));
}
