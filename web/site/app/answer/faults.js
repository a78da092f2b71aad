// The faults of a tile that has several, of which one is shown: a list, and buttons for the next and the previous one.

import { explainFault } from '../../../../bindings/js/src/words/explain.js';
import { byId, element, prose } from '../tools/dom.js';
import { Listbox } from '../tools/listbox.js';
import { counted, digits } from '../tools/text.js';

/** @typedef {import('../../../../bindings/js/src/gate/calls.js').Faults} Faults */

/** How many faults are listed. */
const LISTED = 1000;

export class FaultList {
  /** @type {string[]} the texts of those that are listed */
  #texts = [];
  #count = 0;
  #shown = 0;
  #section = byId('faults', HTMLElement);
  #summary = byId('faults-summary', HTMLElement);
  #body = byId('faults-body', HTMLElement);
  #previous = byId('previous-fault', HTMLButtonElement);
  #next = byId('next-fault', HTMLButtonElement);
  #listbox = new Listbox(byId('faults-list', HTMLElement), {
    choose: (index) => this.#go(index),
    enter: () => byId('chosen', HTMLElement).focus(),
  });
  #choose;

  /** @param {(text: string) => void} choose is called where the user chose a fault */
  constructor(choose) {
    this.#choose = choose;
    this.#previous.addEventListener('click', () => this.#go(this.#shown - 1));
    this.#next.addEventListener('click', () => this.#go(this.#shown + 1));
  }

  clear() {
    this.#section.hidden = true;
    this.#texts = [];
    this.#listbox.clear();
  }

  /**
   * Lists faults, of which the first is shown. One alone needs no list.
   * @param {Faults} faults
   */
  show({ count, texts }) {
    this.clear();
    if (count < 2) return;
    this.#section.hidden = false;
    this.#body.hidden = false;
    this.#count = count;
    this.#texts = texts.slice(0, LISTED);
    this.#summary.textContent = summaryOf(count);
    for (const text of this.#texts) this.#listbox.add(...lineOf(text)).dataset.fault = text;
    this.#mark(0);
  }

  /**
   * Says why no faults are listed.
   * @param {string} sentence
   */
  say(sentence) {
    this.clear();
    this.#section.hidden = false;
    this.#body.hidden = true;
    this.#summary.textContent = sentence;
  }

  /** @param {number} index */
  #go(index) {
    if (index < 0 || index >= this.#texts.length) return;
    this.#mark(index);
    this.#choose(this.#texts[index]);
  }

  /** @param {number} index */
  #mark(index) {
    this.#shown = index;
    this.#listbox.mark(index);
    const { title, sentence } = explainFault(JSON.parse(this.#texts[index]));
    byId('chosen', HTMLElement).textContent = `Fault ${digits(index + 1)} of ${digits(this.#count)}: ${title}`;
    byId('chosen-sentence', HTMLElement).replaceChildren(...prose(sentence));
    // (a button that is disabled would lose the focus)
    this.#previous.setAttribute('aria-disabled', String(index === 0));
    this.#next.setAttribute('aria-disabled', String(index === this.#texts.length - 1));
  }
}

/** @param {number} count */
function summaryOf(count) {
  const all = `${counted(count, 'fault')}: one of each layer and of each feature that has any.`;
  return count > LISTED ? `${all} The first ${digits(LISTED)} are listed.` : all;
}

/**
 * A fault in a line: its sentence names layer and feature.
 * @param {string} text
 */
function lineOf(text) {
  const fault = JSON.parse(text);
  const { title, sentence } = explainFault(fault);
  return [element('span', { class: 'fault-title' }, `${fault.code}: ${title}`), ' ', element('span', { class: 'small' }, ...prose(sentence))];
}
