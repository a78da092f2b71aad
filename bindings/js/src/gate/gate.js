/**
 * The gate in this thread: its calls block.
 *
 * @typedef {import('../types.js').Bytes} Bytes
 * @typedef {import('../types.js').Fault} Fault
 * @typedef {import('../types.js').Options} Options
 * @typedef {import('../types.js').QuickOptions} QuickOptions
 * @typedef {import('../types.js').FaultsOptions} FaultsOptions
 * @typedef {import('../types.js').MendOptions} MendOptions
 */
import { explain } from '../words/explain.js';
import { advisedOf, dumpedOf, faultOf, faultsOf, isConfirmed, mendedOf } from './answers.js';
import { Calls } from './calls.js';
import { bytesOf, limitOf, profileOf, textOf } from './options.js';

export class Gate {
  #calls;
  /** The version of the gate, such as '0.1.0'. */
  version;

  /** @param {WebAssembly.Module} module */
  constructor(module) {
    this.#calls = new Calls(module);
    this.version = this.#calls.version();
  }

  /**
   * @param {Bytes} tile
   * @param {QuickOptions} [options]
   * @returns {Fault | null} the tile's first fault; null for a valid tile
   */
  check(tile, options = {}) {
    const call = options.quick ? 'checkQuickly' : 'check';
    return faultOf(this.#calls[call](bytesOf(tile), profileOf(options)));
  }

  /**
   * @param {Bytes} tile
   * @param {FaultsOptions} [options]
   * @returns {Fault[]} one fault of each layer and feature that has any
   */
  faults(tile, options = {}) {
    const call = options.quick ? 'faultsQuickly' : 'faults';
    return faultsOf(this.#calls[call](bytesOf(tile), profileOf(options), limitOf(options)));
  }

  /**
   * @param {Bytes} tile
   * @param {Fault | string} fault
   * @param {Options} [options]
   * @returns {boolean} whether the separate checker finds the fault true of the tile; TypeError for what is no fault
   */
  confirm(tile, fault, options = {}) {
    return isConfirmed(this.#calls.confirm(bytesOf(tile), textOf(fault), profileOf(options)));
  }

  /**
   * @param {Bytes} tile
   * @param {MendOptions} [options]
   * @returns {import('../types.js').Mended} a valid tile in the place of one whose polygons break the rules
   */
  mend(tile, options = {}) {
    const bytes = bytesOf(tile);
    return mendedOf(bytes, this.#calls.mend(bytes, profileOf(options), Boolean(options.drop)));
  }

  /**
   * @param {Bytes} tile
   * @returns {import('../types.js').Dumped} what the tile holds
   */
  dump(tile) {
    return dumpedOf(this.#calls.dump(bytesOf(tile)));
  }

  /**
   * @param {Bytes} tile
   * @returns {import('../types.js').Advised} what may be a mistake in the tile, though no rule forbids it
   */
  advise(tile) {
    return advisedOf(this.#calls.advise(bytesOf(tile)));
  }

  /**
   * @param {Fault | import('../types.js').Advice} it
   * @param {Bytes} [tile] to say also what other format its bytes are
   * @returns {import('../types.js').Explanation}
   */
  explain(it, tile) {
    return explain(it, tile && bytesOf(tile));
  }
}
