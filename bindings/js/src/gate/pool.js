/**
 * The gate in several workers: each call is made by one that has nothing to do, or waits for it.
 *
 * @typedef {import('../types.js').Bytes} Bytes
 * @typedef {import('../types.js').Fault} Fault
 * @typedef {import('../types.js').CallOptions} CallOptions
 * @typedef {import('../types.js').Options} Options
 * @typedef {import('../types.js').QuickOptions} QuickOptions
 * @typedef {import('../types.js').FaultsOptions} FaultsOptions
 * @typedef {import('../types.js').MendOptions} MendOptions
 * @typedef {{call: import('./serve.js').Call, tile: Uint8Array, given: any[], transfer?: boolean, stop: () => void,
 *   resolve: (answer: any) => void, reject: (error: unknown) => void}} Job a call; `stop` ends it where it is made
 */
import { explain } from '../words/explain.js';
import { advisedOf, dumpedOf, faultOf, faultsOf, isConfirmed, mendedOf } from './answers.js';
import { bytesOf, limitOf, profileOf, textOf } from './options.js';
import { RemoteGate, Stopped } from './remote.js';

export class Pool {
  #newGate;
  /** @type {RemoteGate[]} with nothing to do */
  #idle = [];
  /** @type {Set<RemoteGate>} */
  #gates = new Set();
  /** @type {Set<Job>} in the order in which they came */
  #waiting = new Set();
  #isClosed = false;
  /** How many workers there are at most. They are made when they are needed. */
  size;

  /**
   * @param {WebAssembly.Module} module
   * @param {() => import('./remote.js').GateWorker} newWorker
   * @param {number} size
   */
  constructor(module, newWorker, size) {
    if (!Number.isInteger(size) || size < 1) throw new TypeError('the size of a pool is a whole number of at least 1');
    this.#newGate = () => new RemoteGate(module, newWorker);
    this.size = size;
  }

  /**
   * @param {Bytes} tile
   * @param {QuickOptions & CallOptions} [options]
   * @returns {Promise<Fault | null>}
   */
  async check(tile, options = {}) {
    return faultOf(await this.#ask(options.quick ? 'checkQuickly' : 'check', bytesOf(tile), [profileOf(options)], options));
  }

  /**
   * @param {Bytes} tile
   * @param {FaultsOptions & CallOptions} [options]
   * @returns {Promise<Fault[]>}
   */
  async faults(tile, options = {}) {
    const call = options.quick ? 'faultsQuickly' : 'faults';
    return faultsOf(await this.#ask(call, bytesOf(tile), [profileOf(options), limitOf(options)], options));
  }

  /**
   * @param {Bytes} tile
   * @param {Fault | string} fault
   * @param {Options & CallOptions} [options]
   * @returns {Promise<boolean>}
   */
  async confirm(tile, fault, options = {}) {
    return isConfirmed(await this.#ask('confirm', bytesOf(tile), [textOf(fault), profileOf(options)], options));
  }

  /**
   * @param {Bytes} tile
   * @param {MendOptions & Pick<CallOptions, 'signal'>} [options]
   * @returns {Promise<import('../types.js').Mended>}
   */
  async mend(tile, options = {}) {
    const bytes = bytesOf(tile), { signal } = options; // (a valid tile is answered by itself, so it isn't given away)
    return mendedOf(bytes, await this.#ask('mend', bytes, [profileOf(options), Boolean(options.drop)], { signal }));
  }

  /**
   * @param {Bytes} tile
   * @param {CallOptions} [options]
   * @returns {Promise<import('../types.js').Dumped>}
   */
  async dump(tile, options = {}) {
    return dumpedOf(await this.#ask('dump', bytesOf(tile), [], options));
  }

  /**
   * @param {Bytes} tile
   * @param {CallOptions} [options]
   * @returns {Promise<import('../types.js').Advised>}
   */
  async advise(tile, options = {}) {
    return advisedOf(await this.#ask('advise', bytesOf(tile), [], options));
  }

  /**
   * @param {Fault | import('../types.js').Advice} it
   * @param {Bytes} [tile]
   * @returns {import('../types.js').Explanation}
   */
  explain(it, tile) {
    return explain(it, tile && bytesOf(tile));
  }

  /** Ends all workers. Calls that wait are rejected with Stopped, and so are later ones. */
  close() {
    this.#isClosed = true;
    for (const { reject } of this.#waiting) reject(new Stopped());
    this.#waiting.clear();
    for (const gate of this.#gates) gate.close();
    this.#gates.clear();
    this.#idle = [];
  }

  /**
   * @param {Job['call']} call
   * @param {Uint8Array} tile
   * @param {any[]} given
   * @param {CallOptions} options
   * @returns {Promise<any>}
   */
  #ask(call, tile, given, options) {
    const { signal } = options;
    let abort = () => {};
    return new Promise((resolve, reject) => {
      if (this.#isClosed) throw new Stopped();
      signal?.throwIfAborted();
      const job = { call, tile, given, transfer: options.transfer, stop: () => {}, resolve, reject };
      abort = () => {
        this.#waiting.delete(job);
        reject(signal?.reason);
        job.stop();
      };
      signal?.addEventListener('abort', abort);
      this.#waiting.add(job);
      this.#begin();
    }).finally(() => signal?.removeEventListener('abort', abort));
  }

  /**
   * Has as many calls begin as there are workers with nothing to do. Where the system refuses a further worker, calls wait for those
   * there are; where there are none, they end with its error.
   */
  #begin() {
    for (const job of this.#waiting) {
      try {
        const gate = this.#idle.pop() ?? (this.#gates.size < this.size ? this.#newGate() : null);
        if (!gate) return;
        this.#gates.add(gate);
        this.#waiting.delete(job);
        this.#make(gate, job);
      } catch (error) {
        if (this.#gates.size > 0) return;
        this.#waiting.delete(job);
        job.reject(error);
      }
    }
  }

  /**
   * @param {RemoteGate} gate
   * @param {Job} job
   */
  async #make(gate, job) {
    job.stop = () => gate.stop();
    await gate.ask(job.call, job.tile, job.given, job.transfer).then(({ answer }) => job.resolve(answer), job.reject);
    job.stop = () => {};
    if (this.#isClosed) return;
    this.#idle.push(gate);
    this.#begin();
  }
}
