// The list of layers: which are chosen, and the keys and values of each.

import { cut } from '../../../../bindings/js/src/picture/words.js';
import { featureCounts, valueText } from '../../../../bindings/js/src/tile/layers.js';
import { isolated } from '../../../../bindings/js/src/words/isolated.js';
import { element } from '../tools/dom.js';
import { counted, digits } from '../tools/text.js';

/** @typedef {import('./record.js').TileRecord} TileRecord */
/** @typedef {import('./record.js').Layer} Layer */

/** How many keys, and how many values, are listed of a layer. */
const LISTED = 200;

/** Letters of a name, and of a key or a value. Browsers take minutes for megabytes in a line whose letters run in both directions. */
const LETTERS_OF_NAME = 200;
const LETTERS = 1000;

/** How many layers are listed. Tiles have a few; a million would take a browser's memory. */
const LISTED_LAYERS = 1000;

export class LayerList {
  /** @type {HTMLInputElement[]} */
  #boxes = [];
  #count = 0;
  #list;
  #changed;

  /**
   * @param {HTMLElement} list
   * @param {() => void} changed is called where the user chose other layers
   */
  constructor(list, changed) {
    this.#list = list;
    this.#changed = changed;
  }

  /** The layers that are chosen: those that aren't listed are. */
  get chosen() {
    const chosen = new Set();
    for (let layer = 0; layer < this.#count; layer++) if (this.#boxes[layer]?.checked ?? true) chosen.add(layer);
    return chosen;
  }

  /** @param {Layer[]} layers */
  show(layers) {
    [this.#boxes, this.#count] = [[], layers.length];
    const rest = layers.length > LISTED_LAYERS ? element('li', {}, `and ${counted(layers.length - LISTED_LAYERS, 'more layer')}`) : '';
    this.#list.replaceChildren(...layers.slice(0, LISTED_LAYERS).map((layer) => this.#line(layer)), rest);
  }

  /** @param {Layer} layer */
  #line(layer) {
    const shown = cut(layer.name, LETTERS_OF_NAME), name = isolated(shown);
    const box = element('input', { type: 'checkbox' });
    box.checked = true;
    box.addEventListener('change', this.#changed);
    this.#boxes.push(box);
    return element('li', {},
      element('label', {}, box, element('span', { class: 'layer-name' }, shown || '(no name)')),
      element('p', { class: 'small' }, `${featureCounts(layer)}; extent ${digits(layer.extent)}, version ${layer.version}`),
      this.#texts(`${counted(layer.keys.length, 'key')} of ${name}`, layer.keys.length, (at) => layer.keys[at]),
      this.#texts(`${counted(layer.values.length, 'value')} of ${name}`, layer.values.length, (at) => valueText(layer.values[at])));
  }

  /**
   * Keys or values, which are written when they are asked for.
   * @param {string} title
   * @param {number} count
   * @param {(at: number) => string} textAt
   */
  #texts(title, count, textAt) {
    if (count === 0) return '';
    const details = element('details', { class: 'small' }, element('summary', {}, title));
    details.addEventListener('toggle', () => {
      const items = Array.from({ length: Math.min(count, LISTED) }, (_, at) => element('li', { value: at }, cut(textAt(at), LETTERS)));
      const rest = count > LISTED ? element('p', {}, `The first ${digits(LISTED)} of ${digits(count)} are listed.`) : '';
      details.append(element('ol', { start: 0 }, ...items), rest);
    }, { once: true });
    return details;
  }
}
