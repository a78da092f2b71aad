// Mends the tile that is shown: what was changed, in a list and in a picture, and the mended tile as a file.

import { pictureOfMended } from '../../../../bindings/js/src/picture/index.js';
import { explainFault } from '../../../../bindings/js/src/words/explain.js';
import { reasonOf } from '../files/checks.js';
import { PicturePanel } from '../pictures/panel.js';
import { byId, element, fillTerms, prose } from '../tools/dom.js';
import { saveFile } from '../tools/hand_over.js';
import { Listbox } from '../tools/listbox.js';
import { digits } from '../tools/text.js';
import { featureAt, placeAfter } from './features.js';
import { fileNameOf, mendedName, packedAs } from './file.js';
import { changeFacts, changeLine, isMendable, summaryOf } from './words.js';

/** @typedef {import('../files/checks.js').Entry} Entry */
/** @typedef {import('../files/checks.js').Checks} Checks */
/** @typedef {import('../../../../bindings/js/src/gate/remote.js').RemoteGate} RemoteGate */
/** @typedef {import('../../../../bindings/js/src/types.js').Change} Change */
/** @typedef {{tile: Uint8Array, mended: Uint8Array, changed: Change[]}} Result */

/** How many changes are listed. */
const LISTED = 1000;

export class MendPanel {
  /** @type {Entry|null} */
  #entry = null;
  /** @type {Result|null} */
  #result = null;
  #isMending = false;
  #turns = 0; // each tile that is shown, and each change that is chosen, has its own
  #checks;
  #gate;
  #section = byId('mend', HTMLElement);
  #button = byId('mend-tile', HTMLButtonElement);
  #drop = byId('drop', HTMLInputElement);
  #summary = byId('mend-summary', HTMLElement);
  #body = byId('mend-body', HTMLElement);
  #facts = byId('change-facts', HTMLElement);
  #picture = new PicturePanel(byId('mend-picture', HTMLElement));
  #listbox = new Listbox(byId('changes', HTMLElement), { choose: (index) => this.#draw(index) });

  /**
   * @param {Checks} checks
   * @param {() => RemoteGate} gate that mends, made when it is asked for
   */
  constructor(checks, gate) {
    this.#checks = checks;
    this.#gate = gate;
    this.#button.addEventListener('click', () => this.#mend());
    byId('save-mended', HTMLButtonElement).addEventListener('click', () => this.#save());
  }

  /**
   * Offers to mend a tile, where its fault may be one that is mended; none for null.
   * @param {Entry|null} entry
   */
  show(entry) {
    if (this.#isMending) this.#gate().stop();
    this.#begin();
    this.#entry = entry;
    this.#result = null;
    this.#section.hidden = entry === null || entry.state !== 'fault' || !isMendable(entry.fault);
    this.#section.setAttribute('aria-busy', 'false'); // (what was under way is no longer waited for)
    this.#summary.textContent = '';
    this.#clear();
  }

  #clear() {
    this.#body.hidden = true;
    this.#picture.clear();
    this.#listbox.clear();
  }

  /** @returns {() => boolean} whether nothing else was shown or chosen since */
  #begin() {
    this.#turns += 1;
    const turn = this.#turns;
    return () => turn === this.#turns;
  }

  async #mend() {
    const entry = this.#entry, isCurrent = this.#begin();
    if (!entry) return;
    this.#clear();
    this.#section.setAttribute('aria-busy', 'true');
    this.#summary.textContent = 'The tile is being mended.';
    this.#isMending = true;
    const sentence = await this.#tryToMend(entry, isCurrent).catch((error) => `The tile isn't mended: ${reasonOf(error)}.`);
    this.#isMending = false;
    if (!isCurrent()) return;
    this.#summary.replaceChildren(...prose(sentence));
    if (this.#result) this.#showResult();
    else this.#section.setAttribute('aria-busy', 'false');
  }

  /**
   * @param {Entry} entry
   * @param {() => boolean} isCurrent
   * @returns {Promise<string>} what came of it
   */
  async #tryToMend(entry, isCurrent) {
    this.#result = null;
    const { profile } = this.#checks, tile = await this.#checks.tileOf(entry), gate = this.#gate();
    const { tile: mended, report, fault } = await gate.mend(tile, profile, this.#drop.checked);
    if (fault !== null) return refusalOf(JSON.parse(fault), this.#drop.checked);
    if (mended === null || report === null) return 'The tile is valid as it is.';
    const left = (await gate.check(mended, profile)).fault;
    if (left !== null) return `What came out isn't valid, which is a mistake of the gate: please report it. ${left}`;
    const { changed } = JSON.parse(report);
    if (isCurrent()) this.#result = { tile, mended, changed };
    const rest = changed.length > LISTED ? ` The first ${digits(LISTED)} changes are listed.` : '';
    return `The tile is mended, and the judge finds it valid: ${summaryOf(changed)}${rest}`;
  }

  #showResult() {
    const changed = this.#result?.changed.slice(0, LISTED) ?? [];
    this.#body.hidden = false;
    for (const change of changed) {
      const { title, more } = changeLine(change);
      this.#listbox.add(element('span', { class: 'fault-title' }, title), ' ', element('span', { class: 'small' }, more));
    }
    const { layer, feature } = this.#entry?.fault ?? {};
    const first = changed.findIndex((it) => it.layer === layer && it.feature === feature);
    this.#listbox.mark(Math.max(first, 0));
    this.#draw(Math.max(first, 0));
  }

  /**
   * Shows a change: its facts at once, and its picture when the gate has read the feature.
   * @param {number} index
   */
  async #draw(index) {
    const result = this.#result, isCurrent = this.#begin();
    if (!result) return;
    fillTerms(this.#facts, changeFacts(result.changed[index]));
    this.#picture.clear();
    this.#section.setAttribute('aria-busy', 'true');
    const picture = await this.#pictureOf(result, index).catch(() => null);
    if (!isCurrent()) return;
    if (picture) this.#picture.show(picture);
    this.#section.setAttribute('aria-busy', 'false');
  }

  /**
   * @param {Result} result
   * @param {number} index
   */
  async #pictureOf({ tile, mended, changed }, index) {
    const change = changed[index], gate = this.#gate();
    const before = await featureAt(gate, tile, change);
    const after = change.what === 'dropped' ? null : await featureAt(gate, mended, placeAfter(changed, index));
    if (!before || (change.what === 'mended' && !after)) return null;
    return pictureOfMended({ ...before, extent: before.layer.extent }, after && after.feature, pointOf(this.#entry?.fault ?? null, change));
  }

  async #save() {
    if (!this.#entry || !this.#result) return;
    const { place, file } = this.#entry, name = fileNameOf(this.#entry);
    saveFile(mendedName(place ? name.split('/').slice(-3).join('-') : name), 'application/vnd.mapbox-vector-tile', await packedAs(file, this.#result.mended));
  }
}

/**
 * The point of a fault, where it is in the feature of a change and has one.
 * @param {import('../files/checks.js').Fault|null} fault
 * @param {Change} change
 */
function pointOf(fault, { layer, feature }) {
  if (!fault || fault.code !== 504 || fault.layer !== layer || fault.feature !== feature) return null;
  return { x: Number(fault.x) / Number(fault.w), y: Number(fault.y) / Number(fault.w) };
}

/**
 * @param {import('../files/checks.js').Fault} fault
 * @param {boolean} drop
 */
function refusalOf(fault, drop) {
  const sentence = `The tile can't be mended, for this fault: ${explainFault(fault).sentence}`;
  return isMendable(fault) && !drop ? `${sentence} The feature may be left out.` : sentence;
}
