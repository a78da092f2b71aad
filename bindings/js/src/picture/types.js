// The types of pictures.

/** @typedef {import('./plane/box.js').Box} Box */
/** @typedef {import('./plane/draw.js').Plane} Plane */
/** @typedef {import('./tree.js').Tree} Tree */
/** @typedef {import('../tile/layers.js').Feature} Feature */
/** @typedef {import('../tile/layers.js').Layer} Layer */
/** @typedef {import('../tile/layers.js').TileRecord} TileRecord */
/**
 * A row of the table beside a picture; `sample` is the style of the line that shows it.
 * @typedef {{name: string, text: string, sample?: string}} Place
 */
/**
 * A row of numbers, bytes or layers, laid out for a width in pixels.
 * @typedef {(width: number) => {height: number, nodes: Tree[]}} Strip
 */
/**
 * A picture. It has a plane, which can be looked at through any box, or a strip, which has none, or both.
 * @typedef {object} Picture
 * @property {string} kind
 * @property {string} title
 * @property {string} words one or two sentences that say what is shown
 * @property {Place[]} places a table of what is shown, with exact numbers
 * @property {Plane|null} plane
 * @property {Strip|null} strip
 * @property {Box|null} box the whole; null without a plane
 * @property {Box|null} close the place of the fault
 * @property {Box|null} tile the tile's extent
 */
/** @typedef {{feature: Feature, layer: Layer, extent: number}} FeatureOfFault */
/**
 * A fault, as `check` writes it.
 * @typedef {{[name: string]: any}} Fault
 */

export {};
