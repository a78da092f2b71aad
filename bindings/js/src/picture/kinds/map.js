// The map of all features of a tile.

import { LINESTRING, POINT, POLYGON, followCommands } from '../../tile/commands.js';
import { featureCounts } from '../../tile/layers.js';
import { emptyBox, extentBox, isEmpty, union, withMargin } from '../plane/box.js';
import { isShape, line, shape } from '../plane/scene.js';
import { LAYER_LOOKS } from '../style.js';
import { counted, quotedName } from '../words.js';

/** @typedef {import('../types.js').Picture} Picture */
/** @typedef {import('../types.js').Layer} Layer */
/** @typedef {import('../types.js').TileRecord} TileRecord */
/** @typedef {import('../plane/scene.js').Shape} Shape */
/** @typedef {import('../plane/scene.js').Item} Item */
/** @typedef {import('../plane/clip.js').Line} Line */
/** @typedef {{layer: number, feature: number}} Selected */

const MOST_NUMBERS = 2000000; // of geometry that are drawn
const MOST_SINGLE = 20000; // features that are elements of their own
const MOST_PLACES = 60;

/**
 * @param {TileRecord} record
 * @param {{layers?: Set<number>|null, selected?: Selected|null}} [choice] the layers to show, all where it is null
 * @returns {Picture}
 */
export function mapOfTile({ layers }, choice = {}) {
  const { layers: chosen, selected } = choice;
  const extent = layers.reduce((greatest, layer) => Math.max(greatest, layer.extent), 1);
  const { shapes, omitted } = shapesOf(layers, chosen ?? null, extent);
  const tile = withMargin(extentBox(extent));
  const bounds = shapes.reduce((all, one) => union(all, one.bounds), emptyBox());
  const single = shapes.slice(0, MOST_SINGLE), rest = merged(shapes.slice(MOST_SINGLE));
  const all = counted(layers.length, 'layer', 'layers');
  const shown = chosen && chosen.size < layers.length ? `${counted(chosen.size, 'layer', 'layers')}, of ${layers.length} that the tile has` : all;
  return {
    kind: 'map', title: 'All features of the tile',
    words: `The map has ${counted(shapes.length, 'feature', 'features')} of ${shown}.`
      + (rest.length ? ` The first ${single.length} can be chosen.` : '')
      + (omitted ? ` ${omitted} more are left out, since the tile is large.` : ''),
    places: placesOf(layers),
    plane: { extent, items: [...rest, ...single, ...selectedShapes(single, selected ?? null)] },
    strip: null, box: isEmpty(bounds) ? tile : withMargin(bounds), close: null, tile,
  };
}

/**
 * The shapes of the features in order, and how many there is no room for.
 * @param {Layer[]} layers
 * @param {Set<number>|null} chosen
 * @param {number} extent of the map
 * @returns {{shapes: Shape[], omitted: number}}
 */
function shapesOf(layers, chosen, extent) {
  const shapes = /** @type {Shape[]} */ ([]);
  let numbers = 0, omitted = 0;
  for (const [ordinal, layer] of layers.entries()) {
    if (chosen && !chosen.has(ordinal)) continue;
    for (const [place, feature] of layer.features.entries()) {
      numbers += feature.geometry.length;
      if (numbers > MOST_NUMBERS) omitted += 1;
      else shapes.push(...featureShapes(layer, ordinal, place, extent));
    }
  }
  return { shapes, omitted };
}

/**
 * Shapes of one style as one.
 * @param {Shape[]} shapes
 * @returns {Shape[]}
 */
function merged(shapes) {
  const byStyle = /** @type {Map<string, Line[]>} */ (new Map());
  for (const { style, lines } of shapes) {
    const all = byStyle.get(style) ?? [];
    byStyle.set(style, all);
    for (const one of lines) all.push(one);
  }
  return [...byStyle].map(([style, lines]) => shape(style, { 'data-role': 'features' }, lines));
}

/**
 * @param {Layer[]} layers
 * @returns {import('../types.js').Place[]}
 */
function placesOf(layers) {
  const places = layers.slice(0, MOST_PLACES).map((layer, ordinal) => ({
    name: `layer ${ordinal}`, text: `${quotedName(layer.name)}: ${featureCounts(layer)}`, sample: `map-line ${layerStyle(ordinal)}`,
  }));
  return layers.length > MOST_PLACES ? [...places, { name: 'more layers', text: String(layers.length - MOST_PLACES) }] : places;
}

/**
 * @param {number} ordinal
 * @returns {string}
 */
function layerStyle(ordinal) {
  return `layer-${ordinal % LAYER_LOOKS}`;
}

/**
 * @param {Layer} layer
 * @param {number} ordinal
 * @param {number} place
 * @param {number} extent of the map
 * @returns {Shape[]}
 */
function featureShapes(layer, ordinal, place, extent) {
  const { geometry, type } = layer.features[place];
  if (type !== POINT && type !== LINESTRING && type !== POLYGON) return [];
  const figure = followCommands(geometry, type);
  if (figure.count === 0) return [];
  const factor = layer.extent > 0 ? extent / layer.extent : 1;
  const xs = factor === 1 ? figure.xs : Float64Array.from(figure.xs, (x) => x * factor);
  const ys = factor === 1 ? figure.ys : Float64Array.from(figure.ys, (y) => y * factor);
  const what = type === POLYGON ? 'area' : type === POINT ? 'points' : 'line';
  const lines = type === POINT
    ? Array.from({ length: figure.count }, (_, k) => line(xs, ys, k, 1, false))
    : figure.paths.map(({ first, count }) => line(xs, ys, first, count, type === POLYGON));
  return [shape(`map-${what} ${layerStyle(ordinal)}`, { 'data-role': 'feature', 'data-layer': ordinal, 'data-feature': place }, lines)];
}

/**
 * The shape of the selected feature, drawn over the others.
 * @param {Item[]} items
 * @param {Selected|null} selected
 * @returns {Shape[]}
 */
export function selectedShapes(items, selected) {
  if (!selected) return [];
  return items.flatMap((item) => (isShape(item) ? [item] : []))
    .filter(({ attributes }) => attributes['data-layer'] === selected.layer && attributes['data-feature'] === selected.feature)
    .map((one) => ({ ...one, style: `${one.style} selected`, attributes: { ...one.attributes, 'data-selected': 'true' } }));
}
