// Features found by words: in the name of their layer, their keys, their values or their id.

import { valueText } from '../../../../bindings/js/src/tile/layers.js';

/** @typedef {import('./record.js').TileRecord} TileRecord */
/** @typedef {import('./record.js').Layer} Layer */
/** @typedef {import('./record.js').Feature} Feature */
/** @typedef {{layer: number, feature: number}} FeaturePlace */
/** @typedef {{first: FeaturePlace[], count: number}} Found the first features that were found, and how many there are */

export class Finder {
  #layers;
  /** @type {{name: string, keys: string[], values: string[]}[]} the texts of each layer in small letters */
  #texts;

  /** @param {TileRecord} record */
  constructor(record) {
    this.#layers = record.layers;
    this.#texts = record.layers.map((layer) => ({
      name: layer.name.toLowerCase(),
      keys: layer.keys.map((key) => key.toLowerCase()),
      values: layer.values.map((value) => valueText(value).toLowerCase()),
    }));
  }

  /**
   * @param {string} words all features for no words
   * @param {Set<number>} layers in which it looks
   * @param {number} limit how many features it lists
   * @returns {Found}
   */
  find(words, layers, limit) {
    /** @type {Found} */
    const found = { first: [], count: 0 };
    for (const layer of this.#layers.keys()) {
      if (layers.has(layer)) this.#findIn(layer, words.trim().toLowerCase(), limit, found);
    }
    return found;
  }

  /**
   * @param {number} layer
   * @param {string} words
   * @param {number} limit
   * @param {Found} found
   */
  #findIn(layer, words, limit, found) {
    const fits = this.#condition(layer, words);
    this.#layers[layer].features.forEach((it, feature) => {
      if (!fits(it)) return;
      found.count += 1;
      if (found.first.length < limit) found.first.push({ layer, feature });
    });
  }

  /**
   * @param {number} layer
   * @param {string} words
   * @returns {(feature: Feature) => boolean}
   */
  #condition(layer, words) {
    const texts = this.#texts[layer];
    if (texts.name.includes(words)) return () => true;
    const keys = texts.keys.map((text) => text.includes(words));
    const values = texts.values.map((text) => text.includes(words));
    return ({ tags, id }) => String(id) === words || tags.some((number, at) => (at % 2 ? values : keys)[number]);
  }
}
