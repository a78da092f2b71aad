// Tile ids of PMTiles: all tiles of zoom 0, then of zoom 1, and so on, each zoom along a Hilbert curve (PMTiles specification,
// version 3, section 4.1).

/** The last zoom whose ids a double holds exactly. */
export const LAST_ZOOM = 26;

/**
 * The id of the first tile of a zoom: as many as there are tiles before it.
 * @param {number} zoom
 */
export function firstId(zoom) {
  return (4 ** zoom - 1) / 3;
}

/**
 * The id of a tile.
 * @param {number} zoom up to LAST_ZOOM
 * @param {number} column
 * @param {number} row
 */
export function idOf(zoom, column, row) {
  let id = firstId(zoom), [x, y] = [column, row];
  for (let side = 2 ** zoom / 2; side >= 1; side /= 2) {
    const isEast = (x & side) !== 0, isSouth = (y & side) !== 0;
    id += side * side * quarterOf(isEast, isSouth);
    [x, y] = turned(side, x & (side - 1), y & (side - 1), isEast, isSouth);
  }
  return id;
}

/**
 * Which of the curve's quarters that is.
 * @param {boolean} isEast
 * @param {boolean} isSouth
 */
function quarterOf(isEast, isSouth) {
  if (isEast) return isSouth ? 2 : 3;
  return isSouth ? 1 : 0;
}

/**
 * A place within a quarter, through which the curve runs in a direction of its own.
 * @param {number} side
 * @param {number} x
 * @param {number} y
 * @param {boolean} isEast
 * @param {boolean} isSouth
 * @returns {[number, number]}
 */
function turned(side, x, y, isEast, isSouth) {
  if (isSouth) return [x, y];
  return isEast ? [side - 1 - y, side - 1 - x] : [y, x];
}

/**
 * Where the tile of an id is.
 * @param {number} zoom of the tile
 * @param {number} id
 * @returns {{column: number, row: number}}
 */
export function placeOf(zoom, id) {
  let left = id - firstId(zoom), [x, y] = [0, 0];
  for (let side = 1; side < 2 ** zoom; side *= 2) {
    const quarter = left % 4, isEast = quarter > 1, isSouth = quarter === 1 || quarter === 2;
    [x, y] = turned(side, x, y, isEast, isSouth);
    [x, y] = [x + (isEast ? side : 0), y + (isSouth ? side : 0)];
    left = Math.floor(left / 4);
  }
  return { column: x, row: y };
}
