// Asks the separate checker of any fault.

import { reasonOf } from '../files/checks.js';
import { byId } from '../tools/dom.js';

/** @typedef {import('../../../../bindings/js/src/gate/calls.js').Confirmation} Confirmation */

/** @type {{[answer in Confirmation]: string}} */
const ANSWERS = {
  'confirmed': 'Confirmed: this fault is true of the tile.',
  'not confirmed': "Not confirmed: this fault isn't true of the tile.",
  'not JSON': "This isn't JSON.",
  'not a fault': 'This is JSON, but it is no fault.',
  'out of range': 'A number of this fault is out of range.',
};

export class ConfirmForm {
  #claim = byId('claim', HTMLTextAreaElement);
  #told = byId('told', HTMLElement);
  #turns = 0; // each question has its own, and each tile that is shown

  /** @param {(claim: string) => Promise<Confirmation>} confirm asks the checker, of the tile that is shown */
  constructor(confirm) {
    byId('ask', HTMLButtonElement).addEventListener('click', async () => {
      const isCurrent = this.#begin();
      this.#told.textContent = 'The checker is at work.';
      const answer = confirm(this.#claim.value).then((it) => ANSWERS[it]);
      const said = await answer.catch((error) => `No answer: ${reasonOf(error)}.`);
      if (isCurrent()) this.#told.textContent = said; // (an answer on the tile before would stand beside this one)
    });
  }

  /** @returns {() => boolean} whether nothing else was asked or shown since */
  #begin() {
    this.#turns += 1;
    const turn = this.#turns;
    return () => turn === this.#turns;
  }

  /** @param {string} claim to begin with */
  show(claim) {
    this.#begin();
    this.#claim.value = claim;
    this.#told.textContent = '';
  }
}
