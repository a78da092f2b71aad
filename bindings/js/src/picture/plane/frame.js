// How a box of the tile is laid on a drawing of some width and height in pixels.

import { heightOf, middleOf, widthOf } from './box.js';

/** @typedef {import('./box.js').Box} Box */
/**
 * `box` is what is seen: the box that was asked for, made as wide or as high as the drawing is.
 * @typedef {{box: Box, width: number, height: number, scale: number}} Frame
 */

/**
 * @param {Box} box
 * @param {number} width
 * @param {number} height
 * @returns {Frame}
 */
export function frameOf(box, width, height) {
  const scale = Math.min(width / widthOf(box), height / heightOf(box));
  const { x, y } = middleOf(box);
  const halfWidth = width / scale / 2, halfHeight = height / scale / 2;
  const seen = { left: x - halfWidth, top: y - halfHeight, right: x + halfWidth, bottom: y + halfHeight };
  return { box: seen, width, height, scale };
}

/**
 * @param {Frame} frame
 * @param {number} x
 * @returns {number}
 */
export function toLeft(frame, x) {
  return (x - frame.box.left) * frame.scale;
}

/**
 * @param {Frame} frame
 * @param {number} y
 * @returns {number}
 */
export function toTop(frame, y) {
  return (y - frame.box.top) * frame.scale;
}

/**
 * A length in pixels, as it is written.
 * @param {number} value
 * @returns {string}
 */
export function pixels(value) {
  return String(Math.round(value * 100) / 100);
}
