// A feature and its record: id, type, tags and the numbers of its geometry.

import { cut } from '../../../../bindings/js/src/picture/words.js';
import { typeName, valueText } from '../../../../bindings/js/src/tile/layers.js';
import { isolated } from '../../../../bindings/js/src/words/isolated.js';
import { element, fillTerms } from '../tools/dom.js';
import { counted, digits } from '../tools/text.js';
import { tagsOf } from './record.js';

/** @typedef {import('./record.js').TileRecord} TileRecord */
/** @typedef {import('./record.js').Layer} Layer */
/** @typedef {import('./record.js').Feature} Feature */
/** @typedef {import('./search.js').FeaturePlace} FeaturePlace */

/** How many numbers of a geometry, and how many tags, are listed. */
const NUMBERS = 1000;
const TAGS = 200;

/**
 * Letters of a name, a key or a value in a line, and in the record of a feature. Thousands of tags may have one value of megabytes: whole,
 * these texts would take all memory that a browser has.
 */
const LETTERS_IN_LINE = 100;
const LETTERS_IN_RECORD = 2000;

/**
 * A feature in a line: its place, and what distinguishes it from others.
 * @param {TileRecord} record
 * @param {FeaturePlace} place
 * @returns {{title: string, more: string}}
 */
export function featureLine(record, place) {
  const layer = record.layers[place.layer];
  const feature = layer.features[place.feature];
  const named = feature.tags.findIndex((key, at) => at % 2 === 0 && layer.keys[key] === 'name');
  const [tag] = shortTags(layer, feature, Math.max(named, 0), 1, LETTERS_IN_LINE);
  const parts = [typeName(feature.type)];
  if (feature.id !== null) parts.push(`id ${feature.id}`);
  if (tag) parts.push(`${isolated(tag.key)}: ${isolated(tag.value)}`);
  return { title: `${isolated(cut(layer.name, LETTERS_IN_LINE))}, feature ${place.feature}`, more: parts.join(', ') };
}

/**
 * Some tags of a feature, with long texts cut.
 * @param {Layer} layer
 * @param {Feature} feature
 * @param {number} first the place of the first one's key
 * @param {number} most
 * @param {number} letters of a text
 */
function shortTags(layer, feature, first, most, letters) {
  const textOf = (/** @type {Layer['values'][number]} */ value) => valueText(typeof value.string === 'string' ? { string: cut(value.string, letters) } : value);
  return tagsOf(layer, feature, textOf, first, most).map(({ key, value }) => ({ key: cut(key, letters), value }));
}

/**
 * The tags of a feature that are listed, and how many it has.
 * @param {Layer} layer
 * @param {Feature} feature
 * @returns {{listed: {key: string, value: string}[], count: number}}
 */
export function listedTags(layer, feature) {
  return { listed: shortTags(layer, feature, 0, TAGS, LETTERS_IN_RECORD), count: Math.ceil(feature.tags.length / 2) };
}

/**
 * Writes the record of a feature into a list of terms and into a text.
 * @param {{terms: HTMLElement, tags: HTMLElement, noTags: HTMLElement, numbers: HTMLElement}} parts
 * @param {TileRecord} record
 * @param {FeaturePlace} place
 */
export function showRecord(parts, record, place) {
  const layer = record.layers[place.layer];
  const feature = layer.features[place.feature];
  fillTerms(parts.terms, [
    ['Layer', `${isolated(cut(layer.name, LETTERS_IN_LINE))} (layer ${place.layer})`],
    ['Feature', String(place.feature)],
    ['Id', feature.id === null ? 'none' : String(feature.id)],
    ['Type', typeName(feature.type)],
    ['Geometry', counted(feature.geometry.length, 'number')],
  ]);
  const { listed, count } = listedTags(layer, feature);
  parts.noTags.hidden = count > 0;
  fillTerms(parts.tags, listed.map(({ key, value }) => [key, value]));
  const rest = count > TAGS ? `The first ${TAGS} of ${digits(count)} tags are listed.` : '';
  if (rest) parts.tags.append(element('div', {}, element('dd', {}, rest)));
  parts.numbers.textContent = numbersText(feature.geometry);
}

/** @param {number[]} numbers */
function numbersText(numbers) {
  const rest = numbers.length - NUMBERS;
  return numbers.slice(0, NUMBERS).join(' ') + (rest > 0 ? ` .. and ${digits(rest)} more` : '');
}
