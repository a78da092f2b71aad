// What was read of a file and may be asked for again.

/** @template It */
export class Kept {
  /** @type {Map<string|number, Promise<It>>} the one that was used last at the end */
  #read = new Map();
  #most;

  /** @param {number} most of them */
  constructor(most) {
    this.#most = most;
  }

  /**
   * @param {string|number} name
   * @param {() => Promise<It>} read is called where it isn't kept. What couldn't be read is read again: the disk may be back
   * @returns {Promise<It>}
   */
  get(name, read) {
    const found = this.#read.get(name) ?? read();
    this.#read.delete(name);
    this.#read.set(name, found);
    if (this.#read.size > this.#most) this.#read.delete([...this.#read.keys()][0]);
    found.catch(() => this.#forget(name, found));
    return found;
  }

  /**
   * @param {string|number} name
   * @param {Promise<It>} failed
   */
  #forget(name, failed) {
    if (this.#read.get(name) === failed) this.#read.delete(name);
  }
}
