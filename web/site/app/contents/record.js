// The tags of a feature in the record of a tile.

/** @typedef {import('../../../../bindings/js/src/tile/layers.js').TileRecord} TileRecord */
/** @typedef {import('../../../../bindings/js/src/tile/layers.js').Layer} Layer */
/** @typedef {import('../../../../bindings/js/src/tile/layers.js').Feature} Feature */

/**
 * What a feature's tags say, in order: of a tag whose key or value the layer doesn't have, which number that is.
 * @param {Layer} layer
 * @param {Feature} feature
 * @param {(value: Layer['values'][number]) => string} textOfValue
 * @param {number} [first] the place of the first tag's key
 * @param {number} [most] tags
 * @returns {{key: string, value: string}[]}
 */
export function tagsOf(layer, feature, textOfValue, first = 0, most = Infinity) {
  const tags = [];
  for (let at = first; at < feature.tags.length && tags.length < most; at += 2) {
    const [key, value] = [feature.tags[at], feature.tags[at + 1]];
    tags.push({ key: layer.keys[key] ?? `(no key ${key})`, value: valueAt(layer, value, textOfValue) });
  }
  return tags;
}

/**
 * @param {Layer} layer
 * @param {number|undefined} at
 * @param {(value: Layer['values'][number]) => string} textOfValue
 */
function valueAt(layer, at, textOfValue) {
  if (at === undefined) return '(no value)';
  return at < layer.values.length ? textOfValue(layer.values[at]) : `(no value ${at})`;
}
