/** What the tests of pictures need: records of sample tiles, and the elements of a drawing. */
import { readField, readVarint } from '../../src/tile/fields.js';
import { toTree } from '../../src/picture/index.js';

/** @typedef {import('../../src/tile/fields.js').Field} Field */
/** @typedef {import('../../src/tile/fields.js').Message} Message */
/** @typedef {import('../../src/tile/schema.js').MessageKind} MessageKind */
/** @typedef {import('../../src/picture/types.js').Picture} Picture */
/** @typedef {import('../../src/picture/tree.js').Tree} Tree */

/**
 * The fields of a message one after another, until one can't be read or the message ends.
 * @param {Uint8Array} bytes
 * @param {Message} message
 * @returns {Generator<Field>}
 */
export function* fieldsOf(bytes, message) {
  let field = readField(bytes, message.begin, message.end, message.kind);
  while (field) {
    yield field;
    field = readField(bytes, field.end, message.end, message.kind);
  }
}

/**
 * The record of a tile that has no wire fault, with what pictures use of it.
 * @param {Uint8Array} tile
 * @returns {import('../../src/tile/layers.js').TileRecord}
 */
export function recordOf(tile) {
  const layers = [...fieldsOf(tile, { kind: 'tile', name: '', at: 0, begin: 0, end: tile.length, outer: null })].filter((it) => it.number === 3);
  return { layers: layers.map((it) => layerOf(tile, inner('layer', it))) };
}

/**
 * @param {MessageKind} kind
 * @param {Field} field
 * @returns {Message}
 */
function inner(kind, field) {
  return { kind, name: '', at: field.at, begin: field.payload, end: field.end, outer: null };
}

/**
 * @param {Uint8Array} tile
 * @param {Message} message
 * @returns {import('../../src/tile/layers.js').Layer}
 */
function layerOf(tile, message) {
  const fields = [...fieldsOf(tile, message)];
  const all = (/** @type {number} */ number) => fields.filter((it) => it.number === number);
  const text = (/** @type {Field} */ it) => new TextDecoder().decode(tile.subarray(it.payload, it.end));
  return {
    name: text(all(1)[0]), version: Number(all(15)[0].varint), extent: Number(all(5)[0]?.varint ?? 4096), keys: all(3).map(text),
    values: all(4).map((it) => valueOf(tile, inner('value', it))), features: all(2).map((it) => featureOf(tile, inner('feature', it))),
  };
}

/**
 * @param {Uint8Array} tile
 * @param {Message} message
 * @returns {Record<string, unknown>}
 */
function valueOf(tile, message) {
  const [field] = fieldsOf(tile, message);
  if (field.number === 1) return { string: new TextDecoder().decode(tile.subarray(field.payload, field.end)) };
  if (field.number === 7) return { bool: field.varint !== 0n };
  return { [field.name]: Number(field.varint) };
}

/**
 * @param {Uint8Array} tile
 * @param {Message} message
 * @returns {import('../../src/tile/layers.js').Feature}
 */
function featureOf(tile, message) {
  const fields = [...fieldsOf(tile, message)];
  const numbers = (/** @type {number} */ number) => fields.filter((it) => it.number === number).flatMap((it) => numbersOf(tile, it));
  return { id: null, type: numbers(3)[0], tags: numbers(2), geometry: numbers(4) };
}

/**
 * @param {Uint8Array} tile
 * @param {Field} field
 * @returns {number[]}
 */
function numbersOf(tile, field) {
  const numbers = [];
  for (let at = field.payload, next = readVarint(tile, at, field.end); next; next = readVarint(tile, at, field.end)) {
    numbers.push(Number(next.value));
    at = next.end;
  }
  return numbers;
}

/**
 * The elements of a picture that have a role, by it: their attributes.
 * @param {Picture} picture
 * @param {import('../../src/picture/plane/box.js').Box|null} [box]
 * @returns {Record<string, Record<string, string|number>[]>}
 */
export function elementsOf(picture, box = picture.box) {
  /** @type {Record<string, Record<string, string|number>[]>} */
  const byRole = {};
  for (const { attributes } of nodesOf(toTree(picture, box)).filter((it) => 'data-role' in it.attributes)) (byRole[attributes['data-role']] ??= []).push(attributes);
  return byRole;
}

/**
 * @param {Tree} node
 * @returns {Tree[]} it and all within it
 */
export function nodesOf(node) {
  return [node, ...node.children.flatMap((child) => (typeof child === 'string' ? [] : nodesOf(child)))];
}

/**
 * @param {Tree} node
 * @returns {string[]} its texts
 */
export function textsOf(node) {
  return node.children.flatMap((child) => (typeof child === 'string' ? [child] : textsOf(child)));
}

/**
 * The positions of path data, in pixels.
 * @param {string|number} data
 * @returns {[x: number, y: number][]}
 */
export function positionsOf(data) {
  return [...String(data).matchAll(/[ML](-?[\d.]+) (-?[\d.]+)/g)].map(([, x, y]) => [Number(x), Number(y)]);
}
