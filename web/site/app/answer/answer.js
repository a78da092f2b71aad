// All that is said of the file that is chosen.

import { readRecord } from '../../../../bindings/js/src/tile/record.js';
import { Contents } from '../contents/contents.js';
import { excerptOf, recordAt } from '../contents/excerpt.js';
import { FieldPanel } from '../fields/panel.js';
import { reasonOf } from '../files/checks.js';
import { RECORD_LIMIT } from '../files/limits.js';
import { writeLink } from '../files/link.js';
import { MendPanel } from '../mend/panel.js';
import { byId } from '../tools/dom.js';
import { shortSize } from '../tools/text.js';
import { checkerText, showBanner } from './banner.js';
import { ConfirmForm } from './confirm.js';
import { showAdvice, showMeasures } from './facts.js';
import { FaultPanel } from './fault.js';
import { FaultList } from './faults.js';

/** @typedef {import('../files/checks.js').Entry} Entry */
/** @typedef {import('../files/checks.js').Checks} Checks */
/** @typedef {import('../../../../bindings/js/src/gate/remote.js').RemoteGate} RemoteGate */
/** @typedef {import('../contents/record.js').TileRecord} TileRecord */
/** @typedef {import('../files/checks.js').Fault} Fault */

const SHORT_LIMIT = shortSize(RECORD_LIMIT);

export class Answer {
  /** @type {Entry|null} */
  entry = null;
  /** @type {string|null} the part of an address after # for the tile that is shown; null where there is none */
  link = null;
  #checks;
  #gate;
  #section = byId('answer', HTMLElement);
  #details = byId('details', HTMLElement);
  #fault = new FaultPanel();
  #faults = new FaultList((text) => this.#choose(text));
  #fields = new FieldPanel();
  #contents = new Contents((place) => this.#fields.goToFeature(place));
  #confirm;
  #mend;
  #turns = 0; // what is shown, and each fault that is chosen, has its own
  /** @type {TileRecord|null} of the tile that is shown */
  #record = null;
  /** @type {Promise<void>} ends where the fault that was chosen last is shown */
  #chosen = Promise.resolve();

  /**
   * @param {Checks} checks
   * @param {RemoteGate} gate
   * @param {() => RemoteGate} gateOfMending made when it is asked for
   */
  constructor(checks, gate, gateOfMending) {
    this.#checks = checks;
    this.#gate = gate;
    this.#mend = new MendPanel(checks, gateOfMending);
    this.#confirm = new ConfirmForm(async (claim) => gate.confirm(await checks.tileOf(this.#shown()), claim, checks.profile));
  }

  /** The text of the fault that is shown. */
  get said() {
    return this.#fault.text;
  }

  #shown() {
    if (!this.entry) throw new Error('no file is shown');
    return this.entry;
  }

  /**
   * Shows a file as its state is now, or none.
   * @param {Entry|null} entry
   */
  async show(entry) {
    this.entry = entry;
    const isCurrent = this.#begin();
    this.#section.hidden = entry === null;
    document.body.classList.toggle('has-answer', entry !== null);
    this.#clear();
    this.#mend.show(entry);
    if (!entry) return;
    showBanner(entry, this.#checks.profile);
    showMeasures(entry);
    if (entry.state === 'fault' && entry.fault) this.#fault.show(entry.said, entry.fault, checkerText(entry));
    const isJudged = entry.state === 'valid' || entry.state === 'fault';
    this.#details.hidden = !isJudged;
    if (!isJudged) return;
    this.#confirm.show(entry.said);
    this.#details.setAttribute('aria-busy', 'true');
    await this.#showTile(entry, isCurrent);
    if (entry.fault && isCurrent()) await this.#list(entry, isCurrent);
    if (isCurrent()) this.#details.setAttribute('aria-busy', 'false');
  }

  /** @returns {() => boolean} whether nothing else was shown or chosen since */
  #begin() {
    this.#turns += 1;
    const turn = this.#turns;
    return () => turn === this.#turns;
  }

  /** Moves the focus to the verdict. */
  focus() {
    byId('verdict', HTMLElement).focus();
  }

  #clear() {
    this.#record = null;
    this.#fault.clear();
    this.#faults.clear();
    this.#contents.clear();
    this.#fields.clear();
    this.#showLink(null);
  }

  /** @param {string|null} link */
  #showLink(link) {
    this.link = link;
    byId('copy-link', HTMLElement).hidden = link === null;
  }

  /**
   * Shows what has to be read of the tile: the picture, the advice, what it holds.
   * @param {Entry} entry
   * @param {() => boolean} isCurrent whether it is still what is shown
   */
  async #showTile(entry, isCurrent) {
    try {
      const tile = await this.#checks.tileOf(entry);
      const link = await writeLink(tile, this.#checks.profile);
      if (!isCurrent()) return;
      this.#showLink(link);
      this.#fields.show(tile, entry.fault);
      const record = await this.#recordOf(tile);
      if (isCurrent()) this.#showContents(entry, tile, record);
      if (entry.fault) await this.#draw(entry.fault, tile, isCurrent);
      const advice = await this.#gate.advise(tile);
      if (isCurrent()) showAdvice(advice);
    } catch (error) {
      if (isCurrent()) this.#contents.say(`What the tile holds isn't shown: ${reasonOf(error)}.`);
    }
  }

  /**
   * @param {Fault} fault
   * @param {Uint8Array} tile
   * @param {() => boolean} isCurrent
   */
  async #draw(fault, tile, isCurrent) {
    if (!isCurrent()) return;
    const drawn = this.#record ?? await this.#excerptOf(fault, tile);
    if (isCurrent()) this.#fault.draw(this.#shown().name, fault, tile, drawn);
  }

  /**
   * Lists all faults of a tile. Each but the first is the one that is found quickly in its layer or feature: by `feature` the least ones
   * could take the square of the vertices.
   * @param {Entry} entry
   * @param {() => boolean} isCurrent
   */
  async #list(entry, isCurrent) {
    try {
      const { count, texts } = await this.#gate.faultsQuickly(await this.#checks.tileOf(entry), this.#checks.profile);
      if (isCurrent()) this.#faults.show({ count, texts: [entry.said, ...texts.slice(1)] });
    } catch (error) {
      if (isCurrent()) this.#faults.say(`Other faults aren't listed: ${reasonOf(error)}.`);
    }
  }

  /**
   * Shows a fault of the list: its words at once, and what has to be asked of the gate as soon as the fault before it is shown.
   * @param {string} text
   */
  #choose(text) {
    const isCurrent = this.#begin();
    const fault = JSON.parse(text);
    this.#details.setAttribute('aria-busy', 'true');
    this.#fault.show(text, fault, '');
    this.#fields.goToFault(fault);
    if (this.#record) this.#contents.select(featureOf(fault));
    this.#chosen = this.#chosen.then(async () => {
      if (isCurrent()) await this.#ask(text, fault, isCurrent);
      if (isCurrent()) this.#details.setAttribute('aria-busy', 'false');
    });
  }

  /**
   * @param {string} text
   * @param {Fault} fault
   * @param {() => boolean} isCurrent
   */
  async #ask(text, fault, isCurrent) {
    try {
      const tile = await this.#checks.tileOf(this.#shown());
      await this.#draw(fault, tile, isCurrent);
      const isConfirmed = (await this.#gate.confirm(tile, text, this.#checks.profile)) === 'confirmed';
      if (isCurrent()) this.#fault.say(checkerText({ isConfirmed, isLeast: true }));
    } catch (error) {
      if (isCurrent()) this.#fault.say(`The separate checker has no answer: ${reasonOf(error)}.`);
    }
  }

  /**
   * @param {Uint8Array} tile
   * @returns {Promise<TileRecord|null>} null for bytes that are no tile, and for a tile that is too large
   */
  async #recordOf(tile) {
    if (tile.length > RECORD_LIMIT) return null;
    const { record } = await this.#gate.dump(tile);
    return record === null ? null : readRecord(record);
  }

  /**
   * The record of the feature alone in which the fault of a large tile is.
   * @param {Fault} fault
   * @param {Uint8Array} tile
   */
  async #excerptOf(fault, tile) {
    const place = featureOf(fault);
    const excerpt = place && excerptOf(tile, place);
    if (!excerpt || excerpt.size > RECORD_LIMIT) return null;
    const record = await this.#recordOf(new Uint8Array(await excerpt.arrayBuffer()));
    return record && recordAt(record, place);
  }

  /**
   * @param {Entry} entry
   * @param {Uint8Array} tile
   * @param {TileRecord|null} record
   */
  #showContents({ fault }, tile, record) {
    this.#record = record;
    if (record) this.#contents.show(record, featureOf(fault));
    else if (tile.length <= RECORD_LIMIT) this.#contents.say('The bytes are no tile, so there is nothing to list.');
    else this.#contents.say(`What a tile holds is listed up to ${SHORT_LIMIT}; this one has ${shortSize(tile.length)}.`);
  }
}

/**
 * The place of the feature in which a fault is, if it is in one that can be drawn.
 * @param {Fault|null} fault
 */
function featureOf(fault) {
  return fault && fault.code >= 300 ? { layer: fault.layer, feature: fault.feature } : null;
}
