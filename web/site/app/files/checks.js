// The files, and the check of one after another.

import { OutOfMemory, Stopped } from '../../../../bindings/js/src/gate/errors.js';
import { aboutOf } from '../results/about.js';
import { packingOf, unpack } from './packing.js';
import { readFile, Unreadable } from './read.js';

/** @typedef {import('./link.js').Profile} Profile */
/** @typedef {Pick<import('../../../../bindings/js/src/gate/remote.js').RemoteGate, 'check'|'checkQuickly'|'confirm'|'stop'>} Gate */
/** @typedef {import('../../../../bindings/js/src/gate/remote.js').Judged} Judged */
/** @typedef {'waiting'|'checking'|'valid'|'fault'|'unreadable'|'stopped'} State */
/** @typedef {import('../../../../bindings/js/src/picture/types.js').Fault} Fault the members of a fault's text */
/** @typedef {import('../../../../bindings/js/src/words/formats.js').Format} Format */
/** @typedef {{archive: string} & import('../archives/open.js').Place} PlaceInArchive */

/**
 * What is known of a file. `said` is the text of the fault; `reason` says why there is no verdict.
 * @typedef {object} Entry
 * @property {string} name
 * @property {Blob} file
 * @property {PlaceInArchive|null} place of a tile of an archive
 * @property {State} state
 * @property {boolean} isPacked
 * @property {number} size of the tile, unpacked
 * @property {string} said
 * @property {Fault|null} fault
 * @property {Format|null} format what the bytes are, where they are no tile and that is known
 * @property {import('../results/about.js').About|null} about what the fault is about
 * @property {boolean} isLeast whether the fault is known to be the tile's first one
 * @property {boolean} isConfirmed
 * @property {number} milliseconds
 * @property {number} memory
 * @property {string} reason
 */

/** @typedef {Pick<Entry, 'state'> & Partial<Entry>} Result */

/** In milliseconds: how long a tile's first fault is looked for, beside three times as long as its quick one took. */
const LEAST_TIME = 10000;

/** @typedef {Record<State, number>} Counts how many files are in each state */

/**
 * @param {string} name
 * @param {Blob} file
 * @param {PlaceInArchive|null} [place]
 * @returns {Entry}
 */
export function newEntry(name, file, place = null) {
  return {
    name, file, place, state: 'waiting', isPacked: false, size: 0, said: '', fault: null, format: null, about: null, isLeast: true,
    isConfirmed: false, milliseconds: 0, memory: 0, reason: '',
  };
}

/** @returns {{entry: Entry|null, tile: Promise<Uint8Array>}} */
function nothingRead() {
  return { entry: null, tile: Promise.resolve(new Uint8Array()) };
}

/** @returns {Counts} of no files */
function noCounts() {
  return { waiting: 0, checking: 0, valid: 0, fault: 0, unreadable: 0, stopped: 0 };
}

export class Checks {
  /** @type {Entry[]} */
  entries = [];
  counts = noCounts();
  #following = 0; // the place of the next file: none before it waits
  /** @type {Profile} */
  profile = 'polygon';
  #gate;
  #changed;
  #formatOf;
  #isRunning = false;
  /** @type {{entry: Entry}|null} the check that goes on */
  #current = null;
  #latest = nothingRead(); // the tile that was read last, which is mostly the one that is shown

  /**
   * @param {Gate} gate
   * @param {(entry: Entry) => void} changed is called after each change of an entry's state
   * @param {(fault: Fault, tile: Uint8Array) => Format|null} formatOf
   */
  constructor(gate, changed, formatOf) {
    this.#gate = gate;
    this.#changed = changed;
    this.#formatOf = formatOf;
  }

  get isBusy() {
    return this.counts.waiting + this.counts.checking > 0;
  }

  /**
   * Adds files, which are then checked one after another.
   * @param {Entry[]} entries
   */
  add(entries) {
    for (const entry of entries) {
      this.entries.push(entry);
      this.counts[entry.state] += 1;
    }
    this.#run();
  }

  /** Takes all files away. */
  clear() {
    this.stop();
    this.entries = [];
    this.counts = noCounts();
    this.#following = 0;
    this.#latest = nothingRead();
  }

  /**
   * Checks a file once more.
   * @param {Entry} entry
   */
  again(entry) {
    if (this.#latest.entry === entry) this.#latest = nothingRead(); // (it may be there again, or be another one)
    this.#set(entry, { state: 'waiting' });
    this.#following = 0;
    this.#run();
  }

  /**
   * Checks all files by another profile.
   * @param {Profile} profile
   */
  setProfile(profile) {
    if (profile === this.profile) return;
    this.profile = profile;
    this.#interrupt('waiting');
    for (const entry of this.entries) if (entry.state === 'valid' || entry.state === 'fault') this.#set(entry, { state: 'waiting' });
    this.#following = 0;
    this.#run();
  }

  /** Ends the check that goes on, and those that wait. */
  stop() {
    this.#interrupt('stopped');
  }

  /**
   * The bytes of a file's tile, unpacked.
   * @param {Entry} entry
   * @returns {Promise<Uint8Array>}
   */
  tileOf(entry) {
    if (this.#latest.entry !== entry) this.#latest = { entry, tile: readTile(entry) };
    return this.#latest.tile;
  }

  /** @param {State} state of the entries that were under way */
  #interrupt(state) {
    if (this.#current) this.#gate.stop();
    this.#current = null;
    for (const entry of this.entries.filter(isUnderWay)) this.#set(entry, { state });
  }

  async #run() {
    if (this.#isRunning) return;
    this.#isRunning = true;
    for (let entry = this.#next(); entry; entry = this.#next()) await this.#check(entry);
    this.#isRunning = false;
  }

  /** @returns {Entry|undefined} the first file that waits */
  #next() {
    while (this.#following < this.entries.length && this.entries[this.#following].state !== 'waiting') this.#following += 1;
    return this.entries[this.#following];
  }

  /**
   * Checks a file. Where this is interrupted, another state is set already.
   * @param {Entry} entry
   */
  async #check(entry) {
    const current = { entry };
    this.#current = current;
    this.#set(entry, { state: 'checking', reason: '' });
    const result = await this.#judge(entry, () => this.#current === current).catch(afterError);
    if (this.#current !== current) return;
    this.#current = null;
    this.#set(entry, result);
  }

  /**
   * @param {Entry} entry
   * @param {() => boolean} isCurrent
   * @returns {Promise<Result>}
   */
  async #judge(entry, isCurrent) {
    const tile = await this.tileOf(entry);
    if (!isCurrent()) throw new Stopped();
    const { fault, milliseconds, memory, isLeast } = await this.#verdictOn(tile);
    const measured = { size: tile.length, milliseconds, memory, isLeast };
    if (fault === null) return { state: 'valid', said: '', fault: null, format: null, about: null, isConfirmed: false, ...measured };
    const isConfirmed = (await this.#gate.confirm(tile, fault, this.profile)) === 'confirmed';
    const members = JSON.parse(fault), about = aboutOf(members, tile);
    return { state: 'fault', said: fault, fault: members, format: this.#formatOf(members, tile), about, isConfirmed, ...measured };
  }

  /**
   * The first fault of a tile. By `feature` the time for it may grow with the square of the vertices, so a fault that is found quickly is
   * looked for before it, and stands where the first one isn't found in some time.
   * @param {Uint8Array} tile
   * @returns {Promise<Judged & {isLeast: boolean}>}
   */
  async #verdictOn(tile) {
    if (this.profile === 'polygon') return { ...await this.#gate.check(tile, this.profile), isLeast: true };
    const quick = await this.#gate.checkQuickly(tile, this.profile);
    if (quick.fault === null) return { ...quick, isLeast: true };
    let isOver = false;
    const clock = setTimeout(() => {
      isOver = true;
      this.#gate.stop();
    }, LEAST_TIME + 3 * quick.milliseconds);
    try {
      return { ...await this.#gate.check(tile, this.profile), isLeast: true };
    } catch (error) {
      if (isOver) return { ...quick, isLeast: false };
      throw error;
    } finally {
      clearTimeout(clock);
    }
  }

  /**
   * @param {Entry} entry
   * @param {Result} result
   */
  #set(entry, result) {
    this.counts[entry.state] -= 1;
    Object.assign(entry, result);
    this.counts[entry.state] += 1;
    this.#changed(entry);
  }
}

/** @param {Entry} entry */
function isUnderWay(entry) {
  return entry.state === 'waiting' || entry.state === 'checking';
}

/**
 * @param {Entry} entry
 */
async function readTile(entry) {
  const bytes = await readFile(entry.file);
  entry.isPacked = packingOf(bytes) !== null;
  return unpack(bytes);
}

/**
 * @param {unknown} error
 * @returns {Result}
 */
function afterError(error) {
  if (error instanceof Stopped) return { state: 'stopped' };
  return { state: 'unreadable', reason: reasonOf(error) };
}

/**
 * A sentence without its full stop: why a call brought nothing.
 * @param {unknown} error
 */
export function reasonOf(error) {
  if (error instanceof OutOfMemory) return 'the browser refused the memory that the check needs';
  if (error instanceof Unreadable) return error.message;
  if (error instanceof Stopped) return 'it was stopped';
  return `the page failed with an error (${error instanceof Error ? error.message : String(error)})`;
}
