// The tables of a database of SQLite, and ways to their rows by some of their columns.

import { Unreadable } from '../../files/read.js';
import { Pages } from './pages.js';
import { bytesOf, comparedToKey } from './record.js';
import { indexForm, recordColumns, tableForm } from './schema.js';
import { Tree } from './tree.js';

/** @typedef {import('./record.js').Value} Value */
/** @typedef {import('./schema.js').TableForm} TableForm */
/** @typedef {{kind: string, name: string, table: string, root: number, sql: string}} Item a line of the schema */
/**
 * A way to rows: a tree of an index, whose entries end with the row's id, or of the table itself; by `row` where the key is the row's id.
 * @typedef {{entries: Tree|null, isTable: boolean, columns: string[]}} Way
 */

const SCHEMA = 1; // the page with which the tree of the schema begins
const MOST_ITEMS = 10_000;
const AUTOMATIC = /^sqlite_autoindex_.*_(\d+)$/;

export class Database {
  mayHaveLog;
  #pages;
  /** @type {Item[]} */
  #items;

  /**
   * @param {Pages} pages
   * @param {Item[]} items
   */
  constructor(pages, items) {
    this.mayHaveLog = pages.mayHaveLog;
    this.#pages = pages;
    this.#items = items;
  }

  /** @param {Blob} file */
  static async open(file) {
    const pages = await Pages.open(file), items = [], decoder = new TextDecoder(pages.encoding);
    for await (const [kind, name, table, root, sql] of new Tree(pages, SCHEMA).rows()) {
      const [kindText, nameText, tableText, sqlText] = [kind, name, table, sql].map((it) => decoder.decode(bytesOf(it)));
      items.push({ kind: kindText, name: nameText.toLowerCase(), table: tableText.toLowerCase(), root: Number(root), sql: sqlText });
      if (items.length > MOST_ITEMS) throw new Unreadable('the database has too many tables');
    }
    return new Database(pages, items);
  }

  /**
   * The tables that have these columns.
   * @param {string[]} columns
   * @param {number} limit bytes of a row
   * @returns {Table[]}
   */
  tablesWith(columns, limit) {
    return this.#items.filter(({ kind }) => kind === 'table').map((item) => new Table(this.#pages, item, this.#items, limit))
      .filter(({ form }) => columns.every((name) => form.columns.includes(name)));
  }
}

export class Table {
  name;
  form;
  #pages;
  #root;
  #items;
  #limit;
  #columns;

  /**
   * @param {Pages} pages
   * @param {Item} item
   * @param {Item[]} items of the schema
   * @param {number} limit
   */
  constructor(pages, { name, root, sql }, items, limit) {
    this.name = name;
    this.form = tableForm(sql);
    this.#pages = pages;
    this.#root = root;
    this.#items = items.filter(({ kind, table }) => kind === 'index' && table === name);
    this.#limit = limit;
    this.#columns = recordColumns(this.form);
  }

  /**
   * A way to the rows by columns, in the order of these; null where there is no index for them.
   * @param {string[]} columns
   * @returns {Way|null}
   */
  wayBy(columns) {
    const begins = (/** @type {string[]} */ key) => columns.every((name, at) => key[at] === name);
    const { form } = this;
    if (columns.length === 1 && form.rowId === columns[0]) return { entries: null, isTable: true, columns };
    if (!form.hasRowIds && begins(form.primary)) return { entries: new Tree(this.#pages, this.#root, this.#limit), isTable: true, columns: this.#columns };
    const index = form.hasRowIds ? this.#items.find((item) => begins(this.#keyOf(item))) : undefined;
    return index ? { entries: new Tree(this.#pages, index.root), isTable: false, columns: this.#keyOf(index) } : null;
  }

  /**
   * The columns of an index.
   * @param {Item} index
   */
  #keyOf({ name, sql }) {
    if (sql) return indexForm(sql).columns;
    return this.form.keys[Number(AUTOMATIC.exec(name)?.[1]) - 1] ?? [];
  }

  /**
   * The row of an entry that a way led to.
   * @param {Way} way
   * @param {Value[]} entry
   * @returns {Promise<Value[]|null>} in the order of the record
   */
  async rowOf({ isTable, columns }, entry) {
    if (isTable) return entry;
    const id = entry[columns.length];
    return typeof id === 'number' ? this.#row(id) : null;
  }

  /**
   * The first row whose columns have these values; null where there is none.
   * @param {string[]} columns
   * @param {Value[]} key
   * @returns {Promise<Value[]|null>}
   */
  async find(columns, key) {
    const way = this.wayBy(columns);
    if (!way) throw new Unreadable(`its table ${this.name} has no index for ${columns.join(', ')}`);
    if (!way.entries) return typeof key[0] === 'number' ? this.#row(key[0]) : null;
    for await (const entry of way.entries.entriesFrom(key)) return comparedToKey(entry, key) === 0 ? this.rowOf(way, entry) : null;
    return null;
  }

  /**
   * The value of a column of a row.
   * @param {Value[]} row
   * @param {string} column
   */
  valueOf(row, column) {
    return row[this.#columns.indexOf(column)] ?? null;
  }

  /** @param {number} id */
  #row(id) {
    return new Tree(this.#pages, this.#root, this.#limit).row(id);
  }
}
