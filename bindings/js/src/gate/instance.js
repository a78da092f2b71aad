/**
 * An instance of the gate's module and its memory. Sizes and addresses have 64 bits in the module, so they are BigInts.
 *
 * @typedef {bigint} Address
 * @typedef {(profile: number, tile: Address, tileLength: bigint, text: Address, room: bigint, length: Address) => number} OfProfile
 * @typedef {{
 *   memory: WebAssembly.Memory,
 *   malloc: (size: bigint) => Address,
 *   free: (at: Address) => void,
 *   forget: () => void,
 *   version: () => number,
 *   check: OfProfile,
 *   check_quickly: OfProfile,
 *   faults: OfProfile,
 *   faults_quickly: OfProfile,
 *   mend: (profile: number, drop: number, tile: Address, tileLength: bigint, out: Address, outRoom: bigint, outLength: Address,
 *     report: Address, reportRoom: bigint, reportLength: Address) => number,
 *   confirm: (profile: number, tile: Address, tileLength: bigint, text: Address, textLength: bigint) => number,
 *   dump: (tile: Address, tileLength: bigint, text: Address, room: bigint, length: Address) => number,
 *   advise: (tile: Address, tileLength: bigint, text: Address, room: bigint, length: Address) => number,
 * }} Exports
 */
import { OutOfMemory, withMemory } from './errors.js';

export class Instance {
  /** @type {Exports} */
  exports;

  /** @param {WebAssembly.Module} module */
  constructor(module) {
    this.exports = /** @type {any} */ (withMemory(() => new WebAssembly.Instance(module).exports));
  }

  /** The size of the memory in bytes. It only grows. */
  get memory() {
    return this.exports.memory.buffer.byteLength;
  }

  /**
   * @param {number} size in bytes
   * @returns {Address} of as many bytes
   */
  take(size) {
    const at = this.exports.malloc(BigInt(size));
    if (at === 0n) throw new OutOfMemory();
    return at;
  }

  /**
   * @param {Uint8Array} bytes
   * @returns {Address} of a copy of them
   */
  put(bytes) {
    const at = this.take(bytes.length);
    // (a view is made for each use, since memory that grows takes the older ones away)
    new Uint8Array(this.exports.memory.buffer).set(bytes, Number(at));
    return at;
  }

  /**
   * @param {Address} at
   * @returns {number} the length that stands there
   */
  length(at) {
    return Number(new DataView(this.exports.memory.buffer).getBigUint64(Number(at), true));
  }

  /**
   * @param {Address} at
   * @param {number} length
   * @returns {Uint8Array} a view of as many bytes, up to the next call
   */
  bytes(at, length) {
    return new Uint8Array(this.exports.memory.buffer, Number(at), length);
  }

  /**
   * @param {Address} at
   * @param {number} length
   * @returns {Uint8Array} as many bytes outside of the module's memory
   */
  copy(at, length) {
    return withMemory(() => this.bytes(at, length).slice());
  }

  /**
   * @param {Address} at
   * @param {number} length
   * @returns {string} the text of as many bytes of UTF-8
   */
  text(at, length) {
    const text = decoded(this.bytes(at, length));
    if (text === '' && length !== 0) throw new OutOfMemory();
    return text;
  }
}

/**
 * @param {Uint8Array} bytes of UTF-8
 * @returns {string} their text, or an empty one where memory was refused or it is longer than a string can be. (Chromium answers
 *   so itself. Other browsers throw, each another error.)
 */
function decoded(bytes) {
  try {
    return new TextDecoder().decode(bytes);
  } catch {
    return '';
  }
}
