// A place of the page for a picture.

import { toText } from '../../../../bindings/js/src/picture/index.js';
import { Viewer } from '../../../../bindings/js/src/picture/viewer.js';
import { element } from '../tools/dom.js';
import { saveFile } from '../tools/hand_over.js';

/** @typedef {import('../../../../bindings/js/src/picture/index.js').Picture} Picture */
/** @typedef {import('../contents/search.js').FeaturePlace} FeaturePlace */

export class PicturePanel {
  /** @type {Viewer|null} */
  #viewer = null;
  #host;
  #choose;

  /**
   * @param {HTMLElement} host
   * @param {(place: FeaturePlace) => void} [choose] is called where the user chose a feature in the picture
   */
  constructor(host, choose = () => undefined) {
    this.#host = host;
    this.#choose = choose;
  }

  /** @param {Picture} picture */
  show(picture) {
    this.clear();
    const figure = element('figure');
    this.#host.append(figure);
    this.#host.hidden = false;
    this.#viewer = new Viewer(figure, picture, { onSelect: this.#choose });
    if (!picture.plane) this.#host.append(saveButton(picture)); // (a plane has a button for what is seen of it)
  }

  /**
   * Shows a feature as the one that is selected.
   * @param {FeaturePlace|null} place
   */
  select(place) {
    this.#viewer?.select(place);
  }

  clear() {
    this.#viewer?.destroy();
    this.#viewer = null;
    this.#host.replaceChildren();
    this.#host.hidden = true;
  }
}

/** @param {Picture} picture */
function saveButton(picture) {
  const button = element('button', { type: 'button', class: 'save' }, 'Save as SVG');
  button.addEventListener('click', () => saveFile(`${picture.kind.replaceAll(' ', '-')}.svg`, 'image/svg+xml', toText(picture)));
  return button;
}
