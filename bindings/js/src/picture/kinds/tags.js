// The picture of a fault of tags (301 to 304): the numbers around it with their keys and values, and the feature's shape.

import { valueText } from '../../tile/layers.js';
import { numberStrip } from '../strip/numbers.js';
import { pictureOfFeature } from './feature.js';
import { counted, cut } from '../words.js';

/** @typedef {import('../types.js').Picture} Picture */
/** @typedef {import('../types.js').FeatureOfFault} FeatureOfFault */
/** @typedef {import('../types.js').Layer} Layer */
/** @typedef {import('../strip/numbers.js').Cell} Cell */

const BEFORE = 6, AFTER = 4; // numbers that are shown before and after the fault's
const LONGEST = 120; // letters of a key or a value

/**
 * @param {{code: number, index: number}} fault
 * @param {FeatureOfFault} of
 * @returns {Picture}
 */
export function pictureOfTags(fault, { feature, layer, extent }) {
  const earlier = fault.code === 304 ? earlierPlace(feature.tags, fault.index) : -1;
  const cells = cellsOf(fault.index, feature.tags, layer, earlier);
  const picture = pictureOfFeature(feature, extent);
  return {
    ...picture, kind: 'tags', title: 'The tags of the feature',
    words: wordsOf(fault, feature.tags, layer, earlier),
    places: cells.map(({ index, number, text }) => ({ name: `number ${index}`, text: `${number}: ${text}` })),
    strip: numberStrip(cells, `${counted(feature.tags.length, 'number', 'numbers')} of tags, around number ${fault.index}`),
  };
}

/**
 * The first even place with the same key.
 * @param {number[]} tags
 * @param {number} index
 * @returns {number}
 */
function earlierPlace(tags, index) {
  return tags.findIndex((key, place) => place % 2 === 0 && key === tags[index]);
}

/**
 * @param {number} index
 * @param {number[]} tags
 * @param {Layer} layer
 * @param {number} earlier
 * @returns {Cell[]}
 */
function cellsOf(index, tags, layer, earlier) {
  const from = Math.max(0, index - (index % 2) - BEFORE), to = Math.min(tags.length, index + AFTER + 1);
  const places = Array.from({ length: Math.max(0, to - from) }, (_, k) => from + k);
  if (earlier >= 0 && earlier < from) places.unshift(earlier, earlier + 1);
  const cells = places.map((place) => ({
    index: place, number: String(tags[place]), text: tagText(place, tags[place], layer), isFault: place === index,
    isSecond: place === earlier, isFaint: place > index, isFirst: place % 2 === 0,
  }));
  return index < tags.length ? cells
    : [...cells, { index, number: 'end', text: 'a value is due', isFault: true, isSecond: false, isFaint: false, isFirst: false }];
}

/**
 * @param {number} place
 * @param {number} number
 * @param {Layer} layer
 * @returns {string}
 */
function tagText(place, number, layer) {
  if (place % 2 === 0) return number < layer.keys.length ? `key ${cut(JSON.stringify(layer.keys[number]), LONGEST)}` : 'no such key';
  return number < layer.values.length ? cut(valueText(layer.values[number]), LONGEST) : 'no such value';
}

/**
 * @param {{code: number, index: number}} fault
 * @param {number[]} tags
 * @param {Layer} layer
 * @param {number} earlier
 * @returns {string}
 */
function wordsOf({ code, index }, tags, layer, earlier) {
  if (code === 301) return `The list of tags ends after ${counted(tags.length, 'number', 'numbers')}, so its last key has no value.`;
  if (code === 302) return `Number ${index} names key ${tags[index]}, and the layer has ${counted(layer.keys.length, 'key', 'keys')}.`;
  if (code === 303) return `Number ${index} names value ${tags[index]}, and the layer has ${counted(layer.values.length, 'value', 'values')}.`;
  return `Number ${index} names key ${tags[index]} again, which number ${earlier} names.`;
}
