// Where a tile is, by the name of its file, and where a point of it is on the earth: longitude and latitude in degrees, by the
// projection of web maps (EPSG:3857).

/**
 * The row counts from the north.
 * @typedef {{zoom: number, column: number, row: number}} Address
 */
/** @typedef {[longitude: number, latitude: number]} Position */

const NAME = /(?:^|[^0-9])(\d{1,2})([/_.-])(\d{1,10})\2(\d{1,10})(?:\.(?:mvt|pbf))?(?:\.gz)?$/i;
const LAST_ZOOM = 30;
const DIGITS = 9; // after the point: a tenth of a millimetre

/**
 * The address in a name that ends with z/x/y.mvt or the like, also with -, _ or . between the numbers; null where it has none.
 * @param {string} name
 * @returns {Address|null}
 */
export function addressOf(name) {
  const [, zoom, , column, row] = (NAME.exec(name) ?? []).map(Number);
  if (!(zoom <= LAST_ZOOM) || Math.max(column, row) >= 2 ** zoom) return null;
  return { zoom, column, row };
}

/** @param {Address} address */
export function addressText({ zoom, column, row }) {
  return `${zoom}/${column}/${row}`;
}

/**
 * The place of a point whose coordinates go from 0 to 1 in the tile, and beyond that in its buffer.
 * @param {Address} address
 * @param {number} x
 * @param {number} y
 * @returns {Position}
 */
export function positionOn({ zoom, column, row }, x, y) {
  const across = (column + x) / 2 ** zoom, down = (row + y) / 2 ** zoom;
  const turned = across < 0 || across > 1 ? across - Math.floor(across) : across; // (on from the other side)
  const latitude = (Math.atan(Math.sinh(Math.PI * (1 - 2 * down))) * 180) / Math.PI;
  return [rounded(360 * turned - 180), rounded(latitude)];
}

/**
 * @param {Address} address
 * @returns {{west: number, south: number, east: number, north: number}}
 */
export function boxOn(address) {
  const [west, north] = positionOn(address, 0, 0), [east, south] = positionOn(address, 1, 1);
  return { west, south, east, north };
}

/** @param {number} degrees */
function rounded(degrees) {
  return Number(degrees.toFixed(DIGITS)) + 0;
}
