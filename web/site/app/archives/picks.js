// The tiles of an archive that were picked: each is one file, however often it is picked.

import { newEntry, reasonOf } from '../files/checks.js';
import { placeText } from './window.js';

/** @typedef {import('../files/checks.js').Entry} Entry */
/** @typedef {import('./open.js').Archive} Archive */
/** @typedef {import('./open.js').Place} Place */

export class Picks {
  /** @type {Map<string, Entry>} by the places of the tiles, as those below */
  #entries = new Map();
  /** @type {Map<string, string>} why tiles couldn't be read */
  #reasons = new Map();
  #archive;
  #name;

  /**
   * @param {Pick<Archive, 'tile'>} archive
   * @param {string} name of the archive
   */
  constructor(archive, name) {
    this.#archive = archive;
    this.#name = name;
  }

  /** @param {Place} place */
  entryOf(place) {
    return this.#entries.get(placeText(place)) ?? null;
  }

  /**
   * Why a tile couldn't be read when it was picked last; null for any other.
   * @param {Place} place
   */
  reasonOf(place) {
    return this.#reasons.get(placeText(place)) ?? null;
  }

  clear() {
    this.#entries.clear();
    this.#reasons.clear();
  }

  /**
   * The file of a tile that wasn't picked before; null where there is none, or where it was. (It may have been picked while it was read.)
   * @param {Place} place
   * @returns {Promise<Entry|null>}
   */
  async pick(place) {
    const name = placeText(place);
    this.#reasons.delete(name);
    const file = this.#entries.has(name) ? null : await this.#read(place, name);
    if (!file || this.#entries.has(name)) return null;
    const entry = newEntry(`${this.#name} ${name}`, file, { archive: this.#name, ...place });
    this.#entries.set(name, entry);
    return entry;
  }

  /**
   * @param {Place} place
   * @param {string} name
   */
  async #read(place, name) {
    try {
      return await this.#archive.tile(place);
    } catch (error) {
      this.#reasons.set(name, reasonOf(error));
      throw error;
    }
  }

  /**
   * The files of those of these tiles that weren't picked before, and how many can't be read: of a damaged archive others can.
   * @param {Place[]} places
   * @returns {Promise<{entries: Entry[], unread: number}>}
   */
  async pickAll(places) {
    const entries = [];
    for (const place of places) {
      const entry = await this.pick(place).catch(() => null);
      if (entry) entries.push(entry);
    }
    return { entries, unread: places.filter((place) => this.reasonOf(place) !== null).length };
  }
}
