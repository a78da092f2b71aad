/**
 * The calls of the gate's module, over bytes and texts. They block, so a page makes them in a worker (remote.js).
 *
 * @typedef {'polygon' | 'feature'} Profile
 * @typedef {'confirmed' | 'not confirmed' | 'not JSON' | 'not a fault' | 'out of range'} Confirmation
 * @typedef {{count: number, texts: string[]}} Faults how many faults a tile has, and the texts of the first ones
 * @typedef {{tile: Uint8Array | null, report: string | null, fault: string | null}} Mending what became of a tile: its mended bytes and
 *   the report on them, or the text of the fault for which it is refused; three times null where it was valid
 * @typedef {import('./instance.js').Exports} Exports
 * @typedef {import('./instance.js').Address} Address
 */
import { OutOfMemory } from './errors.js';
import { Instance } from './instance.js';
import { firstLines } from './lines.js';

/** @type {{[profile in Profile]: number}} */
const NUMBER_OF_PROFILE = { polygon: 0, feature: 1 };

// The statuses of bindings/c/mvtgate.h, as far as this file names them.
const FAULT = 1;
const NO_MEMORY = 2;
const NO_ROOM = 3;
const MENDED = 8;

/** @type {{[status: number]: Confirmation}} */
const CONFIRMATIONS = { 0: 'confirmed', 1: 'not confirmed', 5: 'not JSON', 6: 'not a fault', 7: 'out of range' };

/** In bytes: no text of a fault is longer. */
const FAULT_ROOM = 384;

/** In bytes: a text of faults that is longer is written once more, in a room of its own length. */
const FAULTS_ROOM = 1024 * 1024;

/** How many faults of a tile leave the module where nobody says: the text of all may have hundreds of megabytes. */
const FAULTS_LIMIT = 2000;

/** In bytes: by how much a mended tile may be longer, and the length of a report, so that most tiles are mended once. */
const MENDED_ROOM = 4096;

/** In bytes: the size of a length in the module's memory. */
const LENGTH_ROOM = 8;

/** In bytes: an instance with no more memory is used again. Making one takes far longer than checking a small tile. */
const SMALL_MEMORY = 4 * 1024 * 1024;

/**
 * @param {Profile} profile
 * @returns {number}
 */
function numberOf(profile) {
  if (!Object.hasOwn(NUMBER_OF_PROFILE, profile)) throw new TypeError(`there is no profile ${String(profile)}`);
  return NUMBER_OF_PROFILE[profile];
}

/**
 * @param {Uint8Array} tile
 * @returns {number} in bytes: room for what most tiles hold, so that they are gone over once
 */
const recordRoom = (tile) => 4096 + 4 * tile.length;

/**
 * @param {number} status
 * @returns {Error} for a status that the call's contract excludes
 */
const unexpected = (status) => new Error(`the module answered with the status ${status}`);

export class Calls {
  #module;
  /** @type {Instance | null} with no block in use */
  #kept = null;

  /** The size in bytes to which the module's memory grew in the last call. */
  memory = 0;

  /** @param {WebAssembly.Module} module */
  constructor(module) {
    this.#module = module;
  }

  /**
   * An instance that stopped in the middle of its work takes no further call, nor does one with much memory, which is given back
   * only with the instance.
   *
   * @template Answer
   * @param {(instance: Instance) => Answer} work
   * @returns {Answer}
   */
  #call(work) {
    const instance = this.#kept ?? new Instance(this.#module);
    this.#kept = null;
    try {
      const answer = work(instance);
      if (instance.memory <= SMALL_MEMORY) {
        instance.exports.forget();
        this.#kept = instance;
      }
      return answer;
    } finally {
      this.memory = instance.memory;
    }
  }

  /** @returns {string} such as '0.1.0' */
  version() {
    const number = this.#call((instance) => instance.exports.version());
    return [Math.floor(number / 10000), Math.floor(number / 100) % 100, number % 100].join('.');
  }

  /**
   * @param {Uint8Array} tile
   * @param {Profile} profile
   * @returns {string | null} the text of the tile's first fault; null for a valid tile
   */
  check(tile, profile) {
    return this.#judge('check', tile, profile);
  }

  /**
   * @param {Uint8Array} tile
   * @param {Profile} profile
   * @returns {string | null} the text of the fault that is found in a time that grows little faster than the tile, in the first
   *   layer or feature that has one; null for a valid tile
   */
  checkQuickly(tile, profile) {
    return this.#judge('check_quickly', tile, profile);
  }

  /**
   * @param {'check' | 'check_quickly'} call
   * @param {Uint8Array} tile
   * @param {Profile} profile
   * @returns {string | null}
   */
  #judge(call, tile, profile) {
    const number = numberOf(profile);
    return this.#call((instance) => {
      const [at, text, length] = [instance.put(tile), instance.take(FAULT_ROOM), instance.take(LENGTH_ROOM)];
      const status = instance.exports[call](number, at, BigInt(tile.length), text, BigInt(FAULT_ROOM), length);
      if (status === NO_MEMORY) throw new OutOfMemory();
      if (status > FAULT) throw unexpected(status);
      return status === FAULT ? instance.text(text, instance.length(length)) : null;
    });
  }

  /**
   * @param {Uint8Array} tile
   * @param {Profile} profile
   * @param {number} [limit] of the texts
   * @returns {Faults} the first fault of each layer and feature that has any, in order; the first one is that of check
   */
  faults(tile, profile, limit = FAULTS_LIMIT) {
    return this.#list('faults', tile, profile, limit);
  }

  /**
   * @param {Uint8Array} tile
   * @param {Profile} profile
   * @param {number} [limit] of the texts
   * @returns {Faults} one fault of each layer and feature that has any, in order; the first is that of checkQuickly
   */
  faultsQuickly(tile, profile, limit = FAULTS_LIMIT) {
    return this.#list('faults_quickly', tile, profile, limit);
  }

  /**
   * @param {'faults' | 'faults_quickly'} call
   * @param {Uint8Array} tile
   * @param {Profile} profile
   * @param {number} limit
   * @returns {Faults}
   */
  #list(call, tile, profile, limit) {
    const number = numberOf(profile);
    return this.#write(tile, FAULTS_ROOM, (exports, ...given) => exports[call](number, ...given), (instance, at, bytes) => {
      const { count, length } = firstLines(instance.bytes(at, bytes), limit);
      return { count, texts: instance.text(at, length).split('\n').slice(0, -1) };
    });
  }

  /**
   * @param {Uint8Array} tile
   * @param {Profile} profile
   * @param {boolean} drop whether features that can't be mended are left out
   * @returns {Mending}
   */
  mend(tile, profile, drop) {
    const number = numberOf(profile);
    return this.#call((instance) => {
      const at = instance.put(tile);
      let [room, reportRoom] = [tile.length + MENDED_ROOM, MENDED_ROOM];
      for (;;) {
        const [out, length] = [instance.take(room), instance.take(LENGTH_ROOM)];
        const [report, reportLength] = [instance.take(reportRoom), instance.take(LENGTH_ROOM)];
        const status = instance.exports.mend(number, Number(drop), at, BigInt(tile.length), out, BigInt(room), length, report,
          BigInt(reportRoom), reportLength);
        if (status === NO_MEMORY) throw new OutOfMemory();
        if (status > NO_ROOM && status !== MENDED) throw unexpected(status);
        if (status === 0) return { tile: null, report: null, fault: null };
        const [outBytes, reportBytes] = [instance.length(length), instance.length(reportLength)];
        if (status === FAULT) return { tile: null, report: null, fault: instance.text(report, reportBytes) };
        if (status === MENDED) return { tile: instance.copy(out, outBytes), report: instance.text(report, reportBytes), fault: null };
        if (outBytes <= room && reportBytes <= reportRoom) throw unexpected(status);
        for (const block of [out, length, report, reportLength]) instance.exports.free(block);
        [room, reportRoom] = [Math.max(room, outBytes), Math.max(reportRoom, reportBytes)];
      }
    });
  }

  /**
   * @param {Uint8Array} tile
   * @param {string} fault a text, of any content
   * @param {Profile} profile
   * @returns {Confirmation}
   */
  confirm(tile, fault, profile) {
    const number = numberOf(profile);
    const bytes = new TextEncoder().encode(fault);
    return this.#call((instance) => {
      const [at, text] = [instance.put(tile), instance.put(bytes)];
      const status = instance.exports.confirm(number, at, BigInt(tile.length), text, BigInt(bytes.length));
      if (status === NO_MEMORY) throw new OutOfMemory();
      if (!(status in CONFIRMATIONS)) throw unexpected(status);
      return CONFIRMATIONS[status];
    });
  }

  /**
   * @param {Uint8Array} tile
   * @returns {{record: string | null, fault: string | null}} what the tile holds, as a JSON text, or the wire fault for which it
   *   is no tile
   */
  dump(tile) {
    return this.#write(tile, recordRoom(tile), (exports, ...given) => exports.dump(...given), (instance, at, length, isFault) => {
      const text = instance.text(at, length);
      return isFault ? { record: null, fault: text } : { record: text, fault: null };
    });
  }

  /**
   * @param {Uint8Array} tile
   * @returns {{advice: string | null, fault: string | null}} what may be a mistake in the tile, as a JSON text, or the wire fault
   *   for which it is no tile
   */
  advise(tile) {
    return this.#write(tile, recordRoom(tile), (exports, ...given) => exports.advise(...given), (instance, at, length, isFault) => {
      const text = instance.text(at, length);
      return isFault ? { advice: null, fault: text } : { advice: text, fault: null };
    });
  }

  /**
   * Has a text of any length written.
   *
   * @template Answer
   * @param {Uint8Array} tile
   * @param {number} firstRoom in bytes; where it is too small, the call is made again
   * @param {(exports: Exports, tile: Address, tileLength: bigint, text: Address, room: bigint, length: Address) => number} call
   * @param {(instance: Instance, text: Address, length: number, isFault: boolean) => Answer} read
   * @returns {Answer}
   */
  #write(tile, firstRoom, call, read) {
    return this.#call((instance) => {
      const [at, length] = [instance.put(tile), instance.take(LENGTH_ROOM)];
      let room = firstRoom;
      for (;;) {
        const text = instance.take(room);
        const status = call(instance.exports, at, BigInt(tile.length), text, BigInt(room), length);
        if (status === NO_MEMORY) throw new OutOfMemory();
        if (status > NO_ROOM) throw unexpected(status);
        if (status !== NO_ROOM) return read(instance, text, instance.length(length), status === FAULT);
        instance.exports.free(text);
        room = instance.length(length);
      }
    });
  }
}
