// B-trees of SQLite (its file format, section 1.6): rows by their ids, and entries of an index in their order. Damaged trees, which may
// lead round in circles, are bounded by their depth and by the pages that one question may look at.

import { Unreadable } from '../../files/read.js';
import { comparedToKey, recordOf, varintAt } from './record.js';

/** @typedef {import('./pages.js').Pages} Pages */
/** @typedef {import('./pages.js').Page} Page */
/** @typedef {import('./record.js').Value} Value */
/** @typedef {{left: number}} Budget how many pages may still be looked at */

const INDEX_INNER = 2, TABLE_INNER = 5, INDEX_LEAF = 10, TABLE_LEAF = 13;
const DEPTH = 24; // more than a tree over all pages that there can be has
const MOST_PAGES = 20_000; // for one question
const ENTRY_LIMIT = 1 << 16; // bytes of an entry of an index

export class Tree {
  #pages;
  #root;
  #limit;

  /**
   * @param {Pages} pages
   * @param {number} root the number of its first page
   * @param {number} [limit] bytes of an entry or a row
   */
  constructor(pages, root, limit = ENTRY_LIMIT) {
    this.#pages = pages;
    this.#root = root;
    this.#limit = limit;
  }

  /**
   * The row with an id; null where there is none.
   * @param {number} id
   * @returns {Promise<Value[]|null>}
   */
  async row(id) {
    let number = this.#root;
    for (let depth = 0; depth < DEPTH; depth += 1) {
      const page = await this.#pages.page(number), kind = kindOf(page), at = firstCell(page, (cell) => idAt(page, kind, cell) >= id);
      if (kind === TABLE_LEAF) return at < countOf(page) && idAt(page, kind, cellAt(page, at)) === id ? this.#record(page, at) : null;
      if (kind !== TABLE_INNER) throw damaged();
      number = childAt(page, at);
    }
    throw damaged();
  }

  /**
   * All rows, with no more pages than one question may look at.
   * @returns {AsyncGenerator<Value[]>}
   */
  rows() {
    return this.#rowsOf(this.#root, 0, { left: MOST_PAGES });
  }

  /**
   * @param {number} number
   * @param {number} depth
   * @param {Budget} budget
   * @returns {AsyncGenerator<Value[]>}
   */
  async *#rowsOf(number, depth, budget) {
    const page = await this.#visited(number, depth, budget), kind = kindOf(page), count = countOf(page);
    if (kind !== TABLE_LEAF && kind !== TABLE_INNER) throw damaged();
    for (let at = 0; at < count; at += 1) {
      if (kind === TABLE_LEAF) yield await this.#record(page, at);
      else yield* this.#rowsOf(childAt(page, at), depth + 1, budget);
    }
    if (kind === TABLE_INNER) yield* this.#rowsOf(childAt(page, count), depth + 1, budget);
  }

  /**
   * The entries of an index, in order, from the first one on whose values aren't before those of a key.
   * @param {Value[]} key
   * @returns {AsyncGenerator<Value[]>}
   */
  entriesFrom(key) {
    return this.#entriesOf(this.#root, key, 0, { left: MOST_PAGES });
  }

  /**
   * @param {number} number
   * @param {Value[]} key
   * @param {number} depth
   * @param {Budget} budget
   * @returns {AsyncGenerator<Value[]>}
   */
  async *#entriesOf(number, key, depth, budget) {
    const page = await this.#visited(number, depth, budget), kind = kindOf(page), count = countOf(page);
    if (kind !== INDEX_LEAF && kind !== INDEX_INNER) throw damaged();
    const first = await this.#firstFrom(page, key);
    if (kind === INDEX_INNER) yield* this.#entriesOf(childAt(page, first), key, depth + 1, budget);
    for (let at = first; at < count; at += 1) {
      yield await this.#record(page, at);
      if (kind === INDEX_INNER) yield* this.#entriesOf(childAt(page, at + 1), key, depth + 1, budget);
    }
  }

  /**
   * The first cell of a page of an index that isn't before a key.
   * @param {Page} page
   * @param {Value[]} key
   */
  async #firstFrom(page, key) {
    let low = 0, high = countOf(page);
    while (low < high) {
      const half = (low + high) >> 1;
      if (comparedToKey(await this.#record(page, half), key) < 0) low = half + 1;
      else high = half;
    }
    return low;
  }

  /**
   * @param {number} number
   * @param {number} depth
   * @param {Budget} budget
   */
  async #visited(number, depth, budget) {
    budget.left -= 1;
    if (depth === DEPTH || budget.left < 0) throw damaged();
    return this.#pages.page(number);
  }

  /**
   * The record of a cell, of a table's leaf or of an index.
   * @param {Page} page
   * @param {number} at
   */
  async #record(page, at) {
    const kind = kindOf(page), cell = cellAt(page, at), { usable } = this.#pages;
    const { number: length, end } = varintAt(page.view, kind === INDEX_INNER ? cell + 4 : cell);
    const begin = kind === TABLE_LEAF ? varintAt(page.view, end).end : end, local = localLength(length, usable, kind === TABLE_LEAF);
    const first = new Uint8Array(page.view.buffer, begin, local);
    if (local === length) return recordOf(first);
    return recordOf(await this.#pages.contents(first, length, page.view.getUint32(begin + local), this.#limit));
  }
}

/** @param {Page} page */
function kindOf({ view, head }) {
  return view.getUint8(head);
}

/** @param {Page} page */
function countOf({ view, head }) {
  return view.getUint16(head + 3);
}

/** @param {number} kind */
function isInner(kind) {
  return kind === INDEX_INNER || kind === TABLE_INNER;
}

/**
 * Where a cell begins.
 * @param {Page} page
 * @param {number} at
 */
function cellAt(page, at) {
  return page.view.getUint16(page.head + (isInner(kindOf(page)) ? 12 : 8) + 2 * at);
}

/**
 * The page below a cell; after the last cell, that of the greatest keys.
 * @param {Page} page
 * @param {number} at
 */
function childAt(page, at) {
  return page.view.getUint32(at < countOf(page) ? cellAt(page, at) : page.head + 8);
}

/**
 * The id of a row, or the greatest one below a cell.
 * @param {Page} page
 * @param {number} kind
 * @param {number} cell
 */
function idAt({ view }, kind, cell) {
  return varintAt(view, kind === TABLE_INNER ? cell + 4 : varintAt(view, cell).end).number;
}

/**
 * The first cell of which something is true that is true of all after it.
 * @param {Page} page
 * @param {(cell: number) => boolean} test
 */
function firstCell(page, test) {
  let low = 0, high = countOf(page);
  while (low < high) {
    const half = (low + high) >> 1;
    if (test(cellAt(page, half))) high = half;
    else low = half + 1;
  }
  return low;
}

/**
 * How many bytes of a record are in its page.
 * @param {number} length
 * @param {number} usable
 * @param {boolean} isRow
 */
function localLength(length, usable, isRow) {
  const most = isRow ? usable - 35 : Math.floor(((usable - 12) * 64) / 255) - 23;
  if (length <= most) return length;
  const least = Math.floor(((usable - 12) * 32) / 255) - 23, rest = least + ((length - least) % (usable - 4));
  return rest <= most ? rest : least;
}

function damaged() {
  return new Unreadable('the database is damaged: a tree of it leads nowhere');
}
