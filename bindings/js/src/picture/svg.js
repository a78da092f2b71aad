// A picture as an SVG element: its strip, and below it its plane through a box.

import { drawPlane } from './plane/draw.js';
import { frameOf } from './plane/frame.js';
import { withLightColours } from './colours.js';
import { STYLES } from './style.js';
import { tree } from './tree.js';

/** @typedef {import('./types.js').Picture} Picture */
/** @typedef {import('./types.js').Box} Box */
/** @typedef {import('./tree.js').Tree} Tree */

const SIDE = 12, LINE = 18, LETTER = 6.8; // pixels

/**
 * @param {Picture} picture
 * @param {Box|null} box
 * @param {{width: number, height: number}} size of the plane
 * @returns {Tree}
 */
export function pictureTree(picture, box, { width, height }) {
  const { plane, strip } = picture;
  const hasPlane = plane !== null && box !== null;
  const caption = captionOf(picture, width);
  const above = strip ? strip(width) : { height: 0, nodes: [] };
  const top = caption.height + above.height;
  const nodes = [
    tree('style', {}, [withLightColours(STYLES)]), tree('title', {}, [picture.title]), tree('desc', {}, [picture.words]),
    tree('rect', { class: 'picture-paper', width, height: top }), ...caption.nodes,
    ...(strip ? [tree('g', { class: 'picture-strip', transform: `translate(0 ${caption.height})` }, above.nodes)] : []),
    ...(hasPlane ? [tree('svg', { class: 'picture-plane', y: top, width, height }, drawPlane(plane, frameOf(box, width, height)))] : []),
  ];
  return svgTree(width, top + (hasPlane ? height : 0), nodes, picture);
}

/**
 * The strip alone.
 * @param {Picture} picture
 * @param {number} width
 * @returns {Tree}
 */
export function stripTree(picture, width) {
  const { height, nodes } = picture.strip ? picture.strip(width) : { height: 0, nodes: [] };
  return svgTree(width, height, nodes, picture);
}

/**
 * The title and the words, which a file has and a page writes itself.
 * @param {Picture} picture
 * @param {number} width
 * @returns {{height: number, nodes: Tree[]}}
 */
function captionOf({ title, words }, width) {
  const lines = wrapped(words, Math.floor((width - 2 * SIDE) / LETTER));
  const nodes = [tree('text', { class: 'picture-caption', x: SIDE, y: 24 }, [title]),
    ...lines.map((line, k) => tree('text', { class: 'picture-words', x: SIDE, y: 44 + k * LINE }, [line]))];
  return { height: 44 + lines.length * LINE, nodes };
}

/**
 * @param {string} text
 * @param {number} letters of a line
 * @returns {string[]}
 */
function wrapped(text, letters) {
  const lines = [''];
  for (const word of text.split(' ')) {
    const last = lines[lines.length - 1];
    if (last && last.length + 1 + word.length > letters) lines.push(word);
    else lines[lines.length - 1] = last ? `${last} ${word}` : word;
  }
  return lines;
}

/**
 * @param {number} width
 * @param {number} height
 * @param {Tree[]} nodes
 * @param {Picture} picture
 * @returns {Tree}
 */
function svgTree(width, height, nodes, picture) {
  return tree('svg', { class: 'picture-svg', viewBox: `0 0 ${width} ${height}`, width, height, role: 'img', 'aria-label': picture.title }, nodes);
}
