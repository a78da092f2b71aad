// A movement from one box to another.

import { sizeOf } from '../plane/box.js';

/** @typedef {import('../plane/box.js').Box} Box */

const MILLISECONDS = 280;

/**
 * Shows boxes on the way from one to another, or only the last one where the user wants less motion.
 * @param {Box} from
 * @param {Box} to
 * @param {(box: Box) => void} show
 * @returns {() => void} stops it where it is
 */
export function glide(from, to, show) {
  if (matchMedia('(prefers-reduced-motion: reduce)').matches) {
    show(to);
    return () => {};
  }
  const begin = performance.now();
  let frame = requestAnimationFrame(function next(now) {
    const part = Math.min(Math.max((now - begin) / MILLISECONDS, 0), 1);
    show(part === 1 ? to : boxBetween(from, to, part * part * (3 - 2 * part)));
    if (part < 1) frame = requestAnimationFrame(next);
  });
  return () => cancelAnimationFrame(frame);
}

/**
 * A box on the way: its size grows or shrinks evenly to the eye, about the point that both boxes show at one place.
 * @param {Box} from
 * @param {Box} to
 * @param {number} part from 0 to 1
 * @returns {Box}
 */
export function boxBetween(from, to, part) {
  const before = sizeOf(from), after = sizeOf(to);
  const size = before * (after / before) ** part;
  const share = Math.abs(after - before) < before * 1e-6 ? part : (size - before) / (after - before);
  const at = (/** @type {keyof Box} */ side) => from[side] + (to[side] - from[side]) * share;
  return { left: at('left'), top: at('top'), right: at('right'), bottom: at('bottom') };
}
