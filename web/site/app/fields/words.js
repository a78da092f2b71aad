// What is said of a part of a tile's bytes.

import { readVarint } from '../../../../bindings/js/src/tile/fields.js';
import { floatText, typeName } from '../../../../bindings/js/src/tile/layers.js';
import { ruleOf, wireTypeName } from '../../../../bindings/js/src/tile/schema.js';
import { shortText } from '../../../../bindings/js/src/picture/words.js';
import { counted } from '../tools/text.js';
import { textOf } from './lists.js';
import { partsOf } from './parts.js';

/** @typedef {import('./parts.js').Part} Part */

/** @type {Record<string, string>} the names of fields that a message may have many of */
const ONE_OF = { layers: 'layer', features: 'feature', keys: 'key', values: 'value' };
const NAME = 1, TYPE = 3;
const FEW = 16; // parts among which a layer's name is looked for

/**
 * The name of a part: 'layer 0', 'geometry', 'number 3', 'field 77'.
 * @param {Part} part
 */
export function nameOf({ is, within, number, isOwn, ordinal, end, at, message, isList, progress }) {
  if (message === 'tile') return 'tile';
  if (is === 'unread') return `bytes ${at} to ${end - 1}`;
  if (is === 'number') return `number ${progress?.count}`;
  const name = ruleOf(within, number)?.name ?? `field ${number}`;
  if (progress && !isList) return `${name}, number ${progress.count}`;
  return isOwn && name in ONE_OF ? `${ONE_OF[name]} ${ordinal}` : name;
}

/**
 * What a part has, in short.
 * @param {Uint8Array} bytes
 * @param {Part} part
 * @returns {string}
 */
export function contentText(bytes, part) {
  const { is, within, number, wireType, isOwn, payload, end, message, isList, progress } = part;
  if (is === 'unread') return "can't be read";
  if (message === 'layer') return [layerName(bytes, part), sizeText(part)].filter(Boolean).join(', ');
  if (message === 'value') return valueText(bytes, part);
  if (message || isList) return sizeText(part);
  const rule = ruleOf(within, number);
  if (!rule || !isOwn) return `${wireTypeName(wireType)}, ${sizeText(part)}`;
  if (rule.kind === 'text') return shortText(bytes.subarray(payload, end));
  if (rule.kind === 'float') return floatText(bytes.subarray(payload, end));
  const varint = readVarint(bytes, payload, end)?.value ?? 0n;
  if (progress) return textOf(varint, progress);
  return within === 'feature' && number === TYPE ? `${varint} (${typeName(Number(varint))})` : numberText(rule.kind, varint);
}

/** @param {Part} part */
function sizeText({ payload, end }) {
  return counted(end - payload, 'byte');
}

/**
 * @param {string} kind
 * @param {bigint} varint
 */
function numberText(kind, varint) {
  if (kind === 'bool') return varint === 0n ? 'false' : 'true';
  if (kind === 'zigzag') return String((varint >> 1n) ^ -(varint & 1n));
  return String(kind === 'signed' ? BigInt.asIntN(64, varint) : varint);
}

/**
 * @param {Uint8Array} bytes
 * @param {Part} layer
 */
function layerName(bytes, layer) {
  const name = partsOf(bytes, layer, 0, FEW).parts.find(({ number, wireType }) => number === NAME && wireType === 2);
  return name ? shortText(bytes.subarray(name.payload, name.end)) : '';
}

/**
 * @param {Uint8Array} bytes
 * @param {Part} value
 * @returns {string}
 */
function valueText(bytes, value) {
  const [first] = partsOf(bytes, value, 0, 1).parts;
  return first ? `${nameOf(first)} ${contentText(bytes, first)}` : 'no bytes';
}

/**
 * The parts that hold a byte, from the outermost on.
 * @param {Part[]} path
 */
export function pathText(path) {
  return path.length > 1 ? path.slice(1).map(nameOf).join(', ') : 'the tile';
}

/**
 * What a byte is of its part.
 * @param {Part} part
 * @param {number} place
 */
export function roleText({ is, keyEnd, payload }, place) {
  if (is === 'unread') return "which can't be read";
  if (place < keyEnd) return 'the key of the field';
  return place < payload ? 'the length of the field' : 'content';
}
