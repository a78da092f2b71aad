/** Tiles that tests write by hand. */

/**
 * @param {number} number below 2^31
 * @returns {number[]} in LEB128
 */
export function varint(number) {
  return number < 128 ? [number] : [(number & 127) | 128, ...varint(number >> 7)];
}

/**
 * @param {number} number
 * @param {number[]} payload
 * @returns {number[]} a field with a length
 */
export function field(number, payload) {
  return [(number << 3) | 2, ...varint(payload.length), ...payload];
}

/**
 * @param {number} kind of geometry: 0 unknown, 1 points, 2 lines, 3 polygons
 * @param {number[]} geometry its numbers
 * @returns {number[]} the field of a feature
 */
export function feature(kind, geometry) {
  return field(2, [0x18, kind, ...field(4, geometry.flatMap(varint))]);
}

/**
 * @param {number[][]} features
 * @returns {Uint8Array} a tile of one layer, named a
 */
export function tileOf(features) {
  return new Uint8Array(field(3, [0x78, 2, ...field(1, [0x61]), ...features.flat()]));
}
