/**
 * The gate in a worker, so that a page or a server goes on meanwhile and a long call can be stopped.
 *
 * @typedef {import('./calls.js').Profile} Profile
 * @typedef {import('./calls.js').Confirmation} Confirmation
 * @typedef {import('./calls.js').Faults} Faults
 * @typedef {import('./calls.js').Mending} Mending
 * @typedef {import('../types.js').GateWorker} GateWorker
 * @typedef {{fault: string | null, milliseconds: number, memory: number}} Judged the text of a fault, or null for a valid tile; the
 *   time of the check, and the size in bytes to which the module's memory grew
 * @typedef {import('./serve.js').Question} Question
 * @typedef {import('./serve.js').Reply} Reply
 * @typedef {{answer: any, milliseconds: number, memory: number}} Answered
 * @typedef {{resolve: (answered: Answered) => void, reject: (error: Error) => void}} Waiting
 */
import { OutOfMemory, Stopped, withMemory } from './errors.js';

export { OutOfMemory, Stopped };

/** In bytes: a worker that had as much is replaced, since a browser may be long in taking such memory back from one that goes on. */
const MUCH_MEMORY = 128 * 1024 * 1024;

export class RemoteGate {
  #module;
  #newWorker;
  /** @type {GateWorker} */
  #worker;
  #isBroken = false;
  #isClosed = false;
  #asked = 0;
  /** @type {Map<number, Waiting>} */
  #waiting = new Map();

  /**
   * The version of the gate, such as '0.1.0', as soon as it takes calls. Calls may be made before.
   *
   * @type {Promise<string>}
   */
  ready;

  /**
   * @param {Uint8Array | WebAssembly.Module} module
   * @param {() => GateWorker} newWorker
   */
  constructor(module, newWorker) {
    this.#module = module;
    this.#newWorker = newWorker;
    this.#worker = newWorker();
    this.ready = this.#begin();
  }

  /** @returns {Promise<string>} */
  #begin() {
    const worker = this.#worker;
    // (a worker that was ended may still have a reply on its way, and one of Node says that it ended)
    const isOver = () => this.#isClosed || worker !== this.#worker;
    worker.onmessage = (/** @type {{data: Reply}} */ { data }) => isOver() || this.#take(data);
    worker.onerror = (/** @type {{message?: string}} */ event) => {
      if (isOver()) return;
      this.#isBroken = true;
      this.#rejectAll(new Error(event.message || 'the worker failed'));
    };
    const ready = this.#ask('load', [this.#module]).then(({ answer }) => answer);
    // (a stop before it is ready is no error that the page has to catch)
    ready.catch(() => {});
    return ready;
  }

  /** @param {Reply} reply */
  #take(reply) {
    const waiting = this.#waiting.get(reply.id);
    this.#waiting.delete(reply.id);
    if (!('error' in reply)) waiting?.resolve(reply);
    else if (reply.error.name === 'OutOfMemory') waiting?.reject(new OutOfMemory());
    else if (reply.error.name === 'TypeError') waiting?.reject(new TypeError(reply.error.message));
    else waiting?.reject(new Error(reply.error.message));
    if (reply.memory > MUCH_MEMORY && this.#waiting.size === 0) this.#tryToReplace();
  }

  /** @param {Error} error */
  #rejectAll(error) {
    const all = [...this.#waiting.values()];
    this.#waiting.clear();
    for (const waiting of all) waiting.reject(error);
  }

  /**
   * @param {Question['call']} call
   * @param {any[]} given
   * @param {Transferable[]} moved
   * @returns {Promise<Answered>}
   */
  #ask(call, given, moved = []) {
    return new Promise((resolve, reject) => {
      const id = this.#asked++;
      this.#waiting.set(id, { resolve, reject });
      try {
        this.#worker.postMessage({ id, call, given }, moved);
      } catch (error) {
        this.#waiting.delete(id);
        throw error;
      }
    });
  }

  /**
   * Makes a call of calls.js. The tile is copied once, and the copy is handed over to the worker. A worker that failed is replaced
   * before.
   *
   * @param {import('./serve.js').Call} call
   * @param {Uint8Array} tile
   * @param {any[]} others
   * @param {boolean} [isGiven] whether the tile itself is handed over, where it has a buffer of its own
   * @returns {Promise<Answered>}
   */
  async ask(call, tile, others, isGiven = false) {
    if (this.#isClosed) throw new Stopped();
    if (this.#isBroken) this.#replace();
    // (one that was handed over before has no bytes any more, and can't be copied)
    const isAlone = tile.byteLength > 0 && tile.byteLength === tile.buffer.byteLength && tile.buffer instanceof ArrayBuffer;
    const moved = isGiven && isAlone ? tile : withMemory(() => new Uint8Array(tile));
    return this.#ask(call, [moved, ...others], [moved.buffer]);
  }

  /**
   * @param {Uint8Array} tile
   * @param {Profile} profile
   * @returns {Promise<Judged>} the tile's first fault
   */
  check(tile, profile) {
    return this.#judge('check', tile, profile);
  }

  /**
   * @param {Uint8Array} tile
   * @param {Profile} profile
   * @returns {Promise<Judged>} the same with the fault that is found quickly
   */
  checkQuickly(tile, profile) {
    return this.#judge('checkQuickly', tile, profile);
  }

  /**
   * @param {'check' | 'checkQuickly'} call
   * @param {Uint8Array} tile
   * @param {Profile} profile
   * @returns {Promise<Judged>}
   */
  async #judge(call, tile, profile) {
    const { answer, milliseconds, memory } = await this.ask(call, tile, [profile]);
    return { fault: answer, milliseconds, memory };
  }

  /**
   * @param {Uint8Array} tile
   * @param {Profile} profile
   * @returns {Promise<Faults>} one fault of each layer and feature that has any, in order, as far as they are found quickly
   */
  async faultsQuickly(tile, profile) {
    return (await this.ask('faultsQuickly', tile, [profile])).answer;
  }

  /**
   * @param {Uint8Array} tile
   * @param {Profile} profile
   * @param {boolean} drop whether features that can't be mended are left out
   * @returns {Promise<Mending>}
   */
  async mend(tile, profile, drop) {
    return (await this.ask('mend', tile, [profile, drop])).answer;
  }

  /**
   * @param {Uint8Array} tile
   * @param {string} faultText of any content
   * @param {Profile} profile
   * @returns {Promise<Confirmation>} what the separate checker says of it
   */
  async confirm(tile, faultText, profile) {
    return (await this.ask('confirm', tile, [faultText, profile])).answer;
  }

  /**
   * @param {Uint8Array} tile
   * @returns {Promise<{record: string | null, fault: string | null}>} JSON texts: what the tile holds, or the wire fault for
   *   which it is no tile
   */
  async dump(tile) {
    return (await this.ask('dump', tile, [])).answer;
  }

  /**
   * @param {Uint8Array} tile
   * @returns {Promise<{advice: string | null, fault: string | null}>} JSON texts: what may be a mistake in the tile, or the wire
   *   fault for which it is no tile
   */
  async advise(tile) {
    return (await this.ask('advise', tile, [])).answer;
  }

  /** Ends the worker, whatever it does. The calls that wait are rejected with Stopped, and a new worker takes further calls. */
  stop() {
    this.#rejectAll(new Stopped());
    this.#tryToReplace();
  }

  /** Ends the worker for good. */
  close() {
    this.#isClosed = true;
    this.#rejectAll(new Stopped());
    this.#worker.terminate();
  }

  /** Replaces the worker before it is needed. Where none can be made now, the next call tries it again. */
  #tryToReplace() {
    try {
      this.#replace();
    } catch {
      // (it counts as broken)
    }
  }

  #replace() {
    this.#worker.terminate();
    this.#isBroken = true; // as long as there is no other one
    this.#worker = this.#newWorker();
    this.#isBroken = false;
    this.ready = this.#begin();
  }
}
