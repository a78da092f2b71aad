// The pages of a database of SQLite (its file format, https://www.sqlite.org/fileformat2.html, sections 1.2 and 1.6): the head of the
// file, pages that are read when they are asked for, and contents that go on from page to page.

import { Unreadable } from '../../files/read.js';
import { digits } from '../../tools/text.js';
import { Kept } from '../kept.js';
import { bytesAt } from '../slices.js';

const HEAD = 100; // bytes in front of the first page's own
const LEAST_USABLE = 480; // bytes of a page
const KEPT = 8 << 20; // bytes of pages
const ENCODINGS = ['', 'utf-8', 'utf-16le', 'utf-16be'];

/** @typedef {{number: number, view: DataView, head: number}} Page its head begins at `head` */

export class Pages {
  /** @type {Kept<Page>} */
  #kept;
  #file;
  #size;
  #count;
  /** Bytes of a page that have contents. */
  usable;
  /** How texts are written. */
  encoding;
  /** Whether a log of changes may stand beside the file (its format, section 4). */
  mayHaveLog;

  /**
   * @param {Blob} file
   * @param {Uint8Array} head of the file
   */
  constructor(file, head) {
    const view = new DataView(head.buffer, head.byteOffset, head.byteLength), size = view.getUint16(16);
    this.#file = file;
    this.#size = size === 1 ? 1 << 16 : size;
    this.#count = Math.floor(file.size / this.#size);
    this.usable = this.#size - view.getUint8(20);
    this.mayHaveLog = view.getUint8(19) === 2;
    this.encoding = ENCODINGS[view.getUint32(56)] || 'utf-8'; // (0 in a database without a text)
    const isPower = this.#size >= 512 && (this.#size & (this.#size - 1)) === 0;
    this.#kept = new Kept(Math.floor(KEPT / this.#size));
    if (!isPower || this.usable < LEAST_USABLE) throw new Unreadable('the database is damaged: its pages have a size that no page has');
  }

  /** @param {Blob} file */
  static async open(file) {
    if (file.size < HEAD) throw new Unreadable('the database is cut: it ends in its head');
    return new Pages(file, await bytesAt(file, 0, HEAD));
  }

  /**
   * @param {number} number from 1 on
   * @returns {Promise<Page>}
   */
  page(number) {
    return this.#kept.get(number, () => this.#read(number));
  }

  /**
   * @param {number} number
   * @returns {Promise<Page>}
   */
  async #read(number) {
    if (number < 1 || number > this.#count) throw new Unreadable('the database is damaged, or cut: it has no page where one is said to be');
    const bytes = await bytesAt(this.#file, (number - 1) * this.#size, this.#size);
    return { number, view: new DataView(bytes.buffer), head: number === 1 ? HEAD : 0 };
  }

  /**
   * Contents that begin in a page and may go on in others, each of which begins with the number of the next one.
   * @param {Uint8Array} first what is in the page
   * @param {number} length of the whole
   * @param {number} following the number of the page after it
   * @param {number} limit
   */
  async contents(first, length, following, limit) {
    if (length > limit) throw new Unreadable(`${digits(length)} bytes are stored, and the limit is ${digits(limit)}`);
    const whole = new Uint8Array(length);
    whole.set(first);
    let at = first.length, number = following;
    while (at < length) {
      const { view } = await this.page(number), part = new Uint8Array(view.buffer, 4, Math.min(this.usable - 4, length - at));
      whole.set(part, at);
      at += part.length;
      number = view.getUint32(0);
    }
    return whole;
  }
}
