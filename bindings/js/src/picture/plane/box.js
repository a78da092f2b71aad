// Boxes of the plane, in units of the tile. The y axis points down.

/** @typedef {{left: number, top: number, right: number, bottom: number}} Box */

/** @returns {Box} a box with nothing in it */
export function emptyBox() {
  return { left: Infinity, top: Infinity, right: -Infinity, bottom: -Infinity };
}

/**
 * @param {Box} box
 * @returns {boolean}
 */
export function isEmpty(box) {
  return !(box.left <= box.right && box.top <= box.bottom);
}

/**
 * @param {Box} box
 * @returns {number}
 */
export function widthOf(box) {
  return box.right - box.left;
}

/**
 * @param {Box} box
 * @returns {number}
 */
export function heightOf(box) {
  return box.bottom - box.top;
}

/**
 * @param {Box} box
 * @returns {number}
 */
export function sizeOf(box) {
  return Math.max(widthOf(box), heightOf(box));
}

/**
 * @param {Box} a
 * @param {Box} b
 * @returns {Box}
 */
export function union(a, b) {
  return { left: Math.min(a.left, b.left), top: Math.min(a.top, b.top), right: Math.max(a.right, b.right), bottom: Math.max(a.bottom, b.bottom) };
}

/**
 * @param {Box} a
 * @param {Box} b
 * @returns {boolean} whether they have a point in common
 */
export function meets(a, b) {
  return a.left <= b.right && b.left <= a.right && a.top <= b.bottom && b.top <= a.bottom;
}

/**
 * @param {Box} inner
 * @param {Box} outer
 * @returns {boolean}
 */
export function isWithin(inner, outer) {
  return outer.left <= inner.left && inner.right <= outer.right && outer.top <= inner.top && inner.bottom <= outer.bottom;
}

/**
 * @param {Box} box
 * @param {number} more on each side
 * @returns {Box}
 */
export function enlarged(box, more) {
  return { left: box.left - more, top: box.top - more, right: box.right + more, bottom: box.bottom + more };
}

/**
 * A box with a margin, and with some size even where it holds only a point.
 * @param {Box} box
 * @returns {Box}
 */
export function withMargin(box) {
  return enlarged(box, sizeOf(box) === 0 ? 4 : sizeOf(box) * 0.1);
}

/**
 * @param {number} x
 * @param {number} y
 * @param {number} half
 * @returns {Box}
 */
export function boxAround(x, y, half) {
  return { left: x - half, top: y - half, right: x + half, bottom: y + half };
}

/**
 * @param {Box} box
 * @param {number} x
 * @param {number} y
 * @returns {boolean}
 */
export function holds(box, x, y) {
  return box.left <= x && x <= box.right && box.top <= y && y <= box.bottom;
}

/**
 * The square of an extent.
 * @param {number} extent
 * @returns {Box}
 */
export function extentBox(extent) {
  return { left: 0, top: 0, right: extent, bottom: extent };
}

/**
 * @param {Box} box
 * @returns {{x: number, y: number}}
 */
export function middleOf(box) {
  return { x: (box.left + box.right) / 2, y: (box.top + box.bottom) / 2 };
}

/**
 * A box of the size of `box` around the middle of another one.
 * @param {Box} other
 * @param {Box} box
 * @returns {Box}
 */
export function centredOn(other, box) {
  const { x, y } = middleOf(other);
  const halfWidth = widthOf(box) / 2, halfHeight = heightOf(box) / 2;
  return { left: x - halfWidth, top: y - halfHeight, right: x + halfWidth, bottom: y + halfHeight };
}
