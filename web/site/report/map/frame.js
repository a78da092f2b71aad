// Which part of the map is seen: how far it is enlarged, and which cell is at its corner in the north-west.

/** @typedef {{columns: number, rows: number}} Cells how many there are */
/** @typedef {{width: number, height: number}} Size of the map, in pixels */
/** @typedef {{scale: number, left: number, top: number}} Frame `scale` is 1 where all is seen; `left` and `top` are in cells */

const LARGEST = 64; // pixels of a cell that is enlarged
const STEP = 1.6;

/** @type {Frame} */
export const WHOLE = { scale: 1, left: 0, top: 0 };

/**
 * Pixels of a cell.
 * @param {Frame} frame
 * @param {Cells} cells
 * @param {Size} size
 */
export function sidesOf({ scale }, { columns, rows }, { width, height }) {
  return { across: (width / columns) * scale, down: (height / rows) * scale };
}

/**
 * The frame that is nearest to this one and shows nothing beside the map.
 * @param {Frame} frame
 * @param {Cells} cells
 * @param {Size} size
 * @returns {Frame}
 */
export function within({ scale, left, top }, { columns, rows }, { width, height }) {
  const most = Math.max(1, LARGEST / Math.min(width / columns, height / rows));
  const kept = Math.min(Math.max(scale, 1), most);
  return { scale: kept, left: clamped(left, columns - columns / kept), top: clamped(top, rows - rows / kept) };
}

/**
 * Enlarged by some steps, or fewer where they are negative, while the point at these pixels stays where it is.
 * @param {Frame} frame
 * @param {Cells} cells
 * @param {Size} size
 * @param {number} steps
 * @param {number} [x]
 * @param {number} [y]
 * @returns {Frame}
 */
export function enlarged(frame, cells, size, steps, x = size.width / 2, y = size.height / 2) {
  const { across, down } = sidesOf(frame, cells, size);
  const { scale } = within({ ...frame, scale: frame.scale * STEP ** steps }, cells, size), share = frame.scale / scale;
  const left = frame.left + (x / across) * (1 - share), top = frame.top + (y / down) * (1 - share);
  return within({ scale, left, top }, cells, size);
}

/**
 * Moved by some pixels.
 * @param {Frame} frame
 * @param {Cells} cells
 * @param {Size} size
 * @param {number} x
 * @param {number} y
 * @returns {Frame}
 */
export function moved(frame, cells, size, x, y) {
  const { across, down } = sidesOf(frame, cells, size);
  return within({ ...frame, left: frame.left - x / across, top: frame.top - y / down }, cells, size);
}

/**
 * Moved as little as shows a cell whole.
 * @param {Frame} frame
 * @param {Cells} cells
 * @param {Size} size
 * @param {number} column
 * @param {number} row
 * @returns {Frame}
 */
export function showing(frame, cells, size, column, row) {
  const left = nearest(frame.left, column, cells.columns / frame.scale), top = nearest(frame.top, row, cells.rows / frame.scale);
  return within({ ...frame, left, top }, cells, size);
}

/**
 * The cell at these pixels. Null where there is none.
 * @param {Frame} frame
 * @param {Cells} cells
 * @param {Size} size
 * @param {number} x
 * @param {number} y
 */
export function cellAt(frame, cells, size, x, y) {
  const { across, down } = sidesOf(frame, cells, size);
  const column = Math.floor(frame.left + x / across), row = Math.floor(frame.top + y / down);
  return x >= 0 && y >= 0 && x < size.width && y < size.height && column < cells.columns && row < cells.rows ? { column, row } : null;
}

/**
 * @param {number} begin
 * @param {number} at
 * @param {number} seen how many cells are seen
 */
function nearest(begin, at, seen) {
  return at < begin ? at : at + 1 > begin + seen ? at + 1 - seen : begin;
}

/**
 * @param {number} value
 * @param {number} most
 */
function clamped(value, most) {
  return Math.min(Math.max(value, 0), Math.max(most, 0));
}
