// One fault of a tile: what it means, its picture, and what the separate checker says of it.

import { pictureOfFault } from '../../../../bindings/js/src/picture/index.js';
import { PicturePanel } from '../pictures/panel.js';
import { byId } from '../tools/dom.js';
import { placeText } from '../results/place.js';
import { showFacts, showPlace } from './facts.js';

/** @typedef {import('../contents/record.js').TileRecord} TileRecord */
/** @typedef {import('../../../../bindings/js/src/picture/types.js').Fault} Fault */

export class FaultPanel {
  /** The text of the fault that is shown; empty where none is. */
  text = '';
  #section = byId('fault', HTMLElement);
  #checker = byId('chosen-checker', HTMLElement);
  #picture = new PicturePanel(byId('picture', HTMLElement));

  clear() {
    this.text = '';
    this.#section.hidden = true;
    this.#picture.clear();
  }

  /**
   * Shows the words for a fault.
   * @param {string} text
   * @param {Fault} fault its members
   * @param {string} checker what the checker says of it
   */
  show(text, fault, checker) {
    this.text = text;
    this.#section.hidden = false;
    this.#picture.clear();
    showFacts(text, fault);
    this.say(checker);
  }

  /** @param {string} checker what the checker says of the fault */
  say(checker) {
    this.#checker.textContent = checker;
  }

  /**
   * Shows the picture of the fault, where there is one, and where it is on the earth.
   * @param {string} name of the file
   * @param {Fault} fault
   * @param {Uint8Array} tile
   * @param {TileRecord|null} record
   */
  draw(name, fault, tile, record) {
    showPlace(placeText(name, fault, tile));
    const picture = pictureOfFault(fault, tile, record);
    if (picture) this.#picture.show(picture);
  }
}
