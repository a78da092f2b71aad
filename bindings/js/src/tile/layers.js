// The record of a tile, as `dump` writes it, and short texts of what is in it.

/**
 * @typedef {{geometry: number[], id: number|bigint|string|null, tags: number[], type: number}} Feature
 * @typedef {Record<string, unknown>} Value an object with one key, which says the kind
 * @typedef {object} Layer
 * @property {number} extent
 * @property {Feature[]} features
 * @property {string[]} keys
 * @property {string} name
 * @property {Value[]} values
 * @property {number} version
 */
/** @typedef {{layers: Layer[]}} TileRecord */

const TYPE_NAMES = ['UNKNOWN', 'POINT', 'LINESTRING', 'POLYGON'];

/**
 * @param {number} type
 * @returns {string}
 */
export function typeName(type) {
  return TYPE_NAMES[type] ?? `type ${type}`;
}

/**
 * The text of a value, with its kind.
 * @param {Value|undefined} value
 * @returns {string}
 */
export function valueText(value) {
  if (!value) return '';
  const [kind, content] = Object.entries(value)[0] ?? ['', ''];
  if (kind === 'string') return JSON.stringify(content);
  if (kind === 'float' || kind === 'double') return `${kind} ${floatText(bytesOfHex(String(content)))}`;
  return `${kind} ${String(content)}`;
}

/** @param {string} hex */
function bytesOfHex(hex) {
  return Uint8Array.from(hex.match(/../g) ?? [], (pair) => parseInt(pair, 16));
}

/**
 * A number of IEEE 754, that of four bytes with as few digits as tell it from the others.
 * @param {Uint8Array} bytes four or eight, least significant first
 * @returns {string}
 */
export function floatText(bytes) {
  const view = new DataView(bytes.buffer, bytes.byteOffset, bytes.length);
  const value = bytes.length === 8 ? view.getFloat64(0, true) : view.getFloat32(0, true);
  if (Object.is(value, -0)) return '-0';
  return String(bytes.length === 8 ? value : shortestOf(value));
}

/** @param {number} float */
function shortestOf(float) {
  return [6, 7, 8, 9].map((digits) => Number(float.toPrecision(digits))).find((short) => Math.fround(short) === float) ?? float;
}

/** @type {[one: string, many: string][]} by the geometry type */
const TYPE_WORDS = [['feature of unknown type', 'features of unknown type'], ['feature of points', 'features of points'],
  ['feature of lines', 'features of lines'], ['feature of polygons', 'features of polygons']];

/**
 * How many features of each type a layer has, in words.
 * @param {Layer} layer
 * @returns {string}
 */
export function featureCounts(layer) {
  const counts = [0, 0, 0, 0];
  for (const feature of layer.features) counts[feature.type] += 1;
  const parts = counts.flatMap((count, type) => (count ? [`${count} ${TYPE_WORDS[type][count === 1 ? 0 : 1]}`] : []));
  return parts.length ? parts.join(', ') : 'no features';
}
