// The fields that the messages of a tile know (Mapbox Vector Tile Specification 2.1, section 4), for the names in pictures.

/** @typedef {'tile'|'layer'|'value'|'feature'} MessageKind */
/** @typedef {{name: string, wireType: number, kind: 'message'|'text'|'number'|'signed'|'zigzag'|'bool'|'float'|'numbers'}} FieldRule */

/** @type {Record<MessageKind, Record<number, FieldRule>>} */
const RULES = {
  tile: { 3: { name: 'layers', wireType: 2, kind: 'message' } },
  layer: {
    1: { name: 'name', wireType: 2, kind: 'text' },
    2: { name: 'features', wireType: 2, kind: 'message' },
    3: { name: 'keys', wireType: 2, kind: 'text' },
    4: { name: 'values', wireType: 2, kind: 'message' },
    5: { name: 'extent', wireType: 0, kind: 'number' },
    15: { name: 'version', wireType: 0, kind: 'number' },
  },
  value: {
    1: { name: 'string', wireType: 2, kind: 'text' },
    2: { name: 'float', wireType: 5, kind: 'float' },
    3: { name: 'double', wireType: 1, kind: 'float' },
    4: { name: 'int', wireType: 0, kind: 'signed' },
    5: { name: 'uint', wireType: 0, kind: 'number' },
    6: { name: 'sint', wireType: 0, kind: 'zigzag' },
    7: { name: 'bool', wireType: 0, kind: 'bool' },
  },
  feature: {
    1: { name: 'id', wireType: 0, kind: 'number' },
    2: { name: 'tags', wireType: 2, kind: 'numbers' },
    3: { name: 'type', wireType: 0, kind: 'number' },
    4: { name: 'geometry', wireType: 2, kind: 'numbers' },
  },
};

const VARINT = 0;
const WIRE_TYPES = ['varint', 'eight bytes', 'length and bytes', 'group', 'end of group', 'four bytes', 'no wire type', 'no wire type'];

/**
 * @param {MessageKind} message
 * @param {number} number
 * @returns {FieldRule|null}
 */
export function ruleOf(message, number) {
  return RULES[message][number] ?? null;
}

/**
 * The wire types that a field may have. A list of numbers has two: packed, and a single number (Protocol Buffers encoding).
 * @param {FieldRule} rule
 * @returns {number[]}
 */
export function ownWireTypes({ wireType, kind }) {
  return kind === 'numbers' ? [wireType, VARINT] : [wireType];
}

/**
 * @param {number} wireType
 * @returns {string}
 */
export function wireTypeName(wireType) {
  return WIRE_TYPES[wireType];
}

/**
 * @param {MessageKind} message
 * @returns {string[]} the names of the fields that it knows
 */
export function knownFields(message) {
  return Object.values(RULES[message]).map(({ name }) => name);
}
