// Texts at places of the plane, moved so that they don't cover each other.

import { tree } from '../tree.js';
import { boxAround, holds } from './box.js';
import { clipSegment } from './clip.js';
import { pixels, toLeft, toTop } from './frame.js';

/** @typedef {import('./frame.js').Frame} Frame */
/** @typedef {import('./scene.js').Label} Label */
/** @typedef {import('./box.js').Box} Box */
/** @typedef {{x: number, y: number}} Position */

const LETTER = 7; // pixels, about
const HEIGHT = 15;
const AWAY = 12; // pixels from a position
const BESIDE = 6; // pixels from an edge
const MARK = 9; // pixels of a mark that stay free, on each side
const LEAST_SIZE = 50; // pixels of what gets a label
const ALONG = [0.78, 0.22, 0.64, 0.36]; // where beside the edge

/** @typedef {{x: number, y: number}} Place in pixels */

/**
 * @param {Label[]} labels the more important first; of equal texts one is written
 * @param {Position[]} marks places that stay free
 * @param {Frame} frame
 * @returns {import('../tree.js').Tree[]}
 */
export function labelsOf(labels, marks, frame) {
  const taken = marks.map(({ x, y }) => boxAround(toLeft(frame, x), toTop(frame, y), MARK));
  const texts = [], seen = new Set();
  for (const label of labels) {
    const width = label.text.length * LETTER;
    const place = seen.has(label.text) ? undefined : placesOf(label, frame, width)
      .map(({ x, y }) => ({ left: x - width / 2, top: y - HEIGHT / 2, right: x + width / 2, bottom: y + HEIGHT / 2 }))
      .find((box) => isInside(box, frame) && !taken.some((other) => overlap(box, other)));
    if (!place) continue;
    seen.add(label.text);
    taken.push(place);
    texts.push(tree('text', { class: `picture-${label.style}`, x: pixels(place.left), y: pixels(place.bottom - 4) }, [label.text]));
  }
  return texts;
}

/**
 * Where the middle of a label may be, the best place first.
 * @param {Label} label
 * @param {Frame} frame
 * @param {number} width
 * @returns {Place[]}
 */
function placesOf(label, frame, width) {
  if (label.size * frame.scale < LEAST_SIZE) return [];
  return label.to ? besideEdge(label, label.to, frame, width) : aroundPosition(label, frame, width);
}

/**
 * Places on both sides of the part of an edge that is seen.
 * @param {Position} from
 * @param {Position} to
 * @param {Frame} frame
 * @param {number} width
 * @returns {Place[]}
 */
function besideEdge(from, to, frame, width) {
  const part = clipSegment(from.x, from.y, to.x, to.y, frame.box);
  if (!part) return [];
  const x = toLeft(frame, part.fromX), y = toTop(frame, part.fromY);
  const dx = toLeft(frame, part.toX) - x, dy = toTop(frame, part.toY) - y, length = Math.hypot(dx, dy);
  if (length < LEAST_SIZE) return [];
  const across = { x: -dy / length, y: dx / length };
  const distance = (Math.abs(across.x) * width + Math.abs(across.y) * HEIGHT) / 2 + BESIDE;
  return ALONG.flatMap((share) => [distance, -distance]
    .map((away) => ({ x: x + dx * share + across.x * away, y: y + dy * share + across.y * away })));
}

/**
 * Places around a position; where it is the end of something, first those that are away from that.
 * @param {Label} label
 * @param {Frame} frame
 * @param {number} width
 * @returns {Place[]}
 */
function aroundPosition({ x, y, from }, frame, width) {
  if (!holds(frame.box, x, y)) return [];
  const side = AWAY + width / 2;
  const offsets = [[side, -AWAY], [side, AWAY], [-side, -AWAY], [-side, AWAY], [0, -2 * AWAY], [0, 2 * AWAY]];
  const towards = (/** @type {number[]} */ [dx, dy]) => (from ? (dx * (from.x - x) + dy * (from.y - y)) / Math.hypot(dx, dy) : 0);
  return offsets.sort((a, b) => towards(a) - towards(b)).map(([dx, dy]) => ({ x: toLeft(frame, x) + dx, y: toTop(frame, y) + dy }));
}

/**
 * @param {Box} place
 * @param {Frame} frame
 * @returns {boolean}
 */
function isInside(place, frame) {
  return place.left >= 4 && place.right <= frame.width - 4 && place.top >= 4 && place.bottom <= frame.height - 20;
}

/**
 * @param {Box} a
 * @param {Box} b
 * @returns {boolean}
 */
function overlap(a, b) {
  return a.left < b.right && b.left < a.right && a.top < b.bottom && b.top < a.bottom;
}
