// The picture of a fault of layers: the layers as a list.

import { featureCounts } from '../../tile/layers.js';
import { tree } from '../tree.js';
import { quotedName } from '../words.js';

/** @typedef {import('../types.js').Picture} Picture */
/** @typedef {import('../types.js').Layer} Layer */
/** @typedef {{ordinal: number, layer: Layer, says: string}} Row */

const ROW = 46, SIDE = 12, TOP = 10, AROUND = 4;

/**
 * By its code, what a fault says of the layers that it names: at each, and of all.
 * @type {Record<number, {says: string, words: (named: number[], layers: Layer[]) => string}>}
 */
const SAID = {
  201: { says: 'version isn\'t 2', words: ([layer], layers) => `Layer ${layer} has version ${layers[layer].version}, and version 2 is required.` },
  202: { says: 'same name', words: ([first, second], layers) => `Layers ${first} and ${second} are both named ${quotedName(layers[first].name)}.` },
};

/**
 * @param {{code: number, layer?: number, first?: number, second?: number}} fault
 * @param {import('../types.js').TileRecord} record
 * @returns {Picture}
 */
export function pictureOfLayers(fault, { layers }) {
  const named = 'first' in fault ? [Number(fault.first), Number(fault.second)] : [Number(fault.layer)];
  const { says, words } = SAID[fault.code];
  const rows = rowsOf(layers, named, says);
  return {
    kind: 'layers', title: 'The layers of the tile',
    words: words(named, layers),
    places: rows.map(({ ordinal, layer, says }) => ({
      name: `layer ${ordinal}`,
      text: `${quotedName(layer.name)}, version ${layer.version}, ${featureCounts(layer)}${says && `: ${says}`}`,
    })),
    plane: null, strip: (width) => stripOf(rows, width), box: null, close: null, tile: null,
  };
}

/**
 * The layers that are named, and those around them.
 * @param {Layer[]} layers
 * @param {number[]} named
 * @param {string} says what is said of them
 * @returns {Row[]}
 */
function rowsOf(layers, named, says) {
  const around = named.flatMap((ordinal) => Array.from({ length: 2 * AROUND + 1 }, (_, k) => ordinal - AROUND + k));
  return [...new Set(around)].sort((a, b) => a - b).filter((ordinal) => ordinal in layers)
    .map((ordinal) => ({ ordinal, layer: layers[ordinal], says: named.includes(ordinal) ? says : '' }));
}

/**
 * @param {Row[]} rows
 * @param {number} width
 * @returns {ReturnType<import('../types.js').Strip>}
 */
function stripOf(rows, width) {
  return { height: TOP * 2 + rows.length * ROW, nodes: rows.map((row, k) => rowNode(row, TOP + k * ROW, width - 2 * SIDE)) };
}

/**
 * @param {Row} row
 * @param {number} y
 * @param {number} width
 * @returns {import('../tree.js').Tree}
 */
function rowNode({ ordinal, layer, says }, y, width) {
  const letters = Math.floor((width - 60) / 7);
  const name = layer.name.length > letters ? `${layer.name.slice(0, letters - 1)}…` : layer.name;
  return tree('g', { 'data-role': says ? 'fault-layer' : 'layer', 'data-layer': ordinal }, [
    tree('rect', { class: says ? 'picture-cell-fault' : 'picture-cell', x: SIDE, y, width, height: ROW - 6, rx: 4 }),
    tree('text', { class: 'picture-words-faint', x: SIDE + 12, y: y + 24 }, [String(ordinal)]),
    tree('text', { class: 'picture-words', x: SIDE + 48, y: y + 17 }, [name || '(empty name)']),
    tree('text', { class: 'picture-words-faint', x: SIDE + 48, y: y + 33 }, [`version ${layer.version} · ${featureCounts(layer)}`]),
    ...(says ? [tree('text', { class: 'picture-words-fault', x: SIDE + width - 12, y: y + 17, 'text-anchor': 'end' }, [says])] : []),
  ]);
}
