// What a tile holds: its layers, its features found by words, a map of them, and the record of the one that is chosen.

import { mapOfTile, pictureOfFeature } from '../../../../bindings/js/src/picture/index.js';
import { PicturePanel } from '../pictures/panel.js';
import { byId } from '../tools/dom.js';
import { Listbox } from '../tools/listbox.js';
import { counted, digits } from '../tools/text.js';
import { featureLine, showRecord } from './feature.js';
import { LayerList } from './layers.js';
import { Finder } from './search.js';

/** @typedef {import('./record.js').TileRecord} TileRecord */
/** @typedef {import('./search.js').FeaturePlace} FeaturePlace */

/** How many features are listed at once. */
const LISTED = 200;

export class Contents {
  /** @type {TileRecord} */
  #record = { layers: [] };
  #finder = new Finder(this.#record);
  /** @type {FeaturePlace[]} the features in the list */
  #places = [];
  /** @type {FeaturePlace|null} */
  #selected = null;
  #section = byId('contents', HTMLElement);
  #summary = byId('contents-summary', HTMLElement);
  #body = byId('contents-body', HTMLElement);
  #search = byId('search', HTMLInputElement);
  #found = byId('found', HTMLElement);
  #chosen = byId('record', HTMLElement);
  #parts = {
    terms: byId('record-terms', HTMLElement), tags: byId('record-tags', HTMLElement), noTags: byId('record-no-tags', HTMLElement),
    numbers: byId('record-numbers', HTMLElement),
  };
  #layers = new LayerList(byId('layers', HTMLElement), () => this.#look());
  #features = new Listbox(byId('features', HTMLElement), {
    choose: (index) => this.#chosenByUser(this.#places[index]),
    enter: () => this.#chosen.focus(),
  });
  #map = new PicturePanel(byId('map', HTMLElement), (place) => this.#chosenByUser(place));
  #drawing = new PicturePanel(byId('record-picture', HTMLElement));

  #chose;

  /** @param {(place: FeaturePlace) => void} chosen is called where the user chose a feature */
  constructor(chosen) {
    this.#chose = chosen;
    this.#search.addEventListener('input', () => this.#list());
  }

  clear() {
    this.#section.hidden = true;
    this.#map.clear();
    this.#drawing.clear();
    this.#features.clear();
  }

  /**
   * Says why nothing is listed.
   * @param {string} sentence
   */
  say(sentence) {
    this.clear();
    this.#section.hidden = false;
    this.#body.hidden = true;
    this.#summary.textContent = sentence;
  }

  /**
   * @param {TileRecord} record
   * @param {FeaturePlace|null} place of the feature that is chosen at first
   */
  show(record, place) {
    this.say(summaryOf(record));
    this.#record = record;
    this.#finder = new Finder(record);
    this.#selected = place;
    this.#body.hidden = record.layers.length === 0;
    this.#search.value = '';
    this.#layers.show(record.layers);
    this.#look();
    this.#showSelected();
  }

  /** Lists and draws the layers that are chosen. */
  #look() {
    this.#list();
    this.#draw();
  }

  #draw() {
    this.#map.show(mapOfTile(this.#record, { layers: this.#layers.chosen }));
    this.#map.select(this.#selected);
  }

  #list() {
    const words = this.#search.value;
    const { first, count } = this.#finder.find(words, this.#layers.chosen, LISTED);
    this.#places = first;
    this.#features.clear();
    for (const place of first) {
      const { title, more } = featureLine(this.#record, place);
      this.#features.add(title, ' ', Object.assign(document.createElement('span'), { className: 'small', textContent: more }));
    }
    this.#features.mark(this.#indexOf(this.#selected));
    this.#found.textContent = foundText(words, count);
  }

  /** @param {FeaturePlace|null} place */
  #indexOf(place) {
    return this.#places.findIndex((it) => it.layer === place?.layer && it.feature === place.feature);
  }

  /** @param {FeaturePlace} place */
  #chosenByUser(place) {
    this.select(place);
    this.#chose(place);
  }

  /**
   * Shows a feature as the one that is chosen; none for null.
   * @param {FeaturePlace|null} place
   */
  select(place) {
    this.#selected = place;
    this.#features.mark(this.#indexOf(place));
    this.#map.select(place);
    this.#showSelected();
  }

  #showSelected() {
    const place = this.#selected;
    this.#chosen.hidden = place === null;
    if (!place) return;
    const layer = this.#record.layers[place.layer];
    byId('record-title', HTMLElement).textContent = featureLine(this.#record, place).title;
    showRecord(this.#parts, this.#record, place);
    this.#drawing.show(pictureOfFeature(layer.features[place.feature], layer.extent));
  }
}

/** @param {TileRecord} record */
function summaryOf(record) {
  if (!record.layers.length) return 'The tile has no layer.';
  const features = record.layers.reduce((sum, layer) => sum + layer.features.length, 0);
  return `The tile has ${counted(record.layers.length, 'layer')} with ${counted(features, 'feature')}.`;
}

/**
 * @param {string} words
 * @param {number} count
 */
function foundText(words, count) {
  const what = words.trim() ? `${counted(count, 'feature')} found` : counted(count, 'feature');
  return count > LISTED ? `${what}. The first ${digits(LISTED)} are listed; look for words to see others.` : `${what}.`;
}
