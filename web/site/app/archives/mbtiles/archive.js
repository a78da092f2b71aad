// An MBTiles file as tiles (MBTiles 1.3): a database of SQLite with a table of tiles, or one of places and one of contents.

import { TILE_LIMIT } from '../../files/limits.js';
import { Unreadable } from '../../files/read.js';
import { middleOf } from '../middle.js';
import { Database } from './database.js';
import { bytesOf } from './record.js';

/** @typedef {import('./database.js').Table} Table */
/** @typedef {import('./database.js').Way} Way */
/** @typedef {import('./record.js').Value} Value */
/** @typedef {import('../open.js').Place} Place */
/** @typedef {import('../open.js').Archive} Archive */
/** @typedef {{table: Table, way: Way}} Places the table with the places of tiles, and the way to them */

const PLACE = ['zoom_level', 'tile_column', 'tile_row'], DATA = 'tile_data';
const LAST_ZOOM = 30;
const ROW_LIMIT = TILE_LIMIT + 1024; // bytes: a tile and the other columns
const NO_TILES = 'the database has no tiles: neither a table with zoom_level, tile_column, tile_row and tile_data, nor two of places and contents';
const LOG = "Its latest changes may stand in a log, a file beside it whose name ends with -wal, which isn't seen here: close the writer first.";
const NO_INDEX = 'it has no index for its tiles; make one: CREATE UNIQUE INDEX tile_index ON tiles (zoom_level, tile_column, tile_row)';

/** @implements {Archive} */
export class Mbtiles {
  note;
  #places;
  #way;
  /** @type {{table: Table, id: string}|null} the table of contents, and the column by which they are found; null where they are with the places */
  #contents;

  /**
   * @param {Places} places
   * @param {{table: Table, id: string}|null} contents
   * @param {string} note
   */
  constructor({ table, way }, contents, note) {
    this.note = note;
    this.#places = table;
    this.#way = way;
    this.#contents = contents;
  }

  /** @param {Blob} file */
  static open(file) {
    return told(async () => {
      const database = await Database.open(file), tables = database.tablesWith(PLACE, ROW_LIMIT), note = database.mayHaveLog ? LOG : '';
      const whole = tables.find(({ name, form }) => name === 'tiles' && form.columns.includes(DATA));
      if (whole) return new Mbtiles(withWay(whole), null, note);
      const contents = database.tablesWith([DATA], ROW_LIMIT);
      for (const places of tables) {
        const pair = pairOf(places, contents);
        if (pair) return new Mbtiles(withWay(places), pair, note);
      }
      throw new Unreadable(NO_TILES);
    });
  }

  /** @returns {Promise<number[]>} the zooms that have tiles */
  zooms() {
    return told(async () => {
      const found = [];
      for (let next = 0; next <= LAST_ZOOM; ) {
        const entry = await this.#first([next]);
        if (!entry) break;
        const [zoom] = entry;
        if (typeof zoom !== 'number' || !Number.isInteger(zoom) || zoom > LAST_ZOOM) throw new Unreadable('the database has a tile of a zoom that there isn\'t');
        found.push(zoom);
        next = zoom + 1;
      }
      return found;
    });
  }

  /** @param {number} zoom */
  middle(zoom) {
    return told(async () => {
      const count = 2 ** zoom, column = await middleOf(0, count, (at) => this.#nextIn([zoom], at));
      const row = column === null ? null : await middleOf(0, count, (at) => this.#nextIn([zoom, column], at));
      return column === null || row === null ? null : { column, row: count - 1 - row };
    });
  }

  /** @param {Place[]} places */
  present(places) {
    return told(async () => {
      const found = [];
      for (const place of places) if (await this.#entry(place)) found.push(place);
      return found;
    });
  }

  /**
   * The bytes of a tile. (They are put together from pages, so they are read at once.)
   * @param {Place} place
   */
  tile(place) {
    return told(async () => {
      const entry = await this.#entry(place), row = entry && await this.#places.rowOf(this.#way, entry);
      if (!row) return null;
      const data = this.#contents ? await this.#contentOf(row, this.#contents) : this.#places.valueOf(row, DATA);
      if (data === null) throw new Unreadable('there are no bytes in the database (NULL)');
      return new Blob([bytesOf(data)]);
    });
  }

  /**
   * @param {Value[]} row
   * @param {{table: Table, id: string}} contents
   */
  async #contentOf(row, { table, id }) {
    const found = await table.find([id], [this.#places.valueOf(row, id)]);
    return found && table.valueOf(found, DATA);
  }

  /**
   * The entry of a place; null where there is no tile. (Rows count from the south.)
   * @param {Place} place
   */
  async #entry({ zoom, column, row }) {
    const key = [zoom, column, 2 ** zoom - 1 - row], entry = await this.#first(key);
    return entry && key.every((number, at) => entry[at] === number) ? entry : null;
  }

  /**
   * The least number from one on that comes after these in a place where there is a tile.
   * @param {number[]} before
   * @param {number} at
   */
  async #nextIn(before, at) {
    const entry = await this.#first([...before, at]), next = entry?.[before.length];
    return entry && typeof next === 'number' && before.every((number, k) => entry[k] === number) ? next : null;
  }

  /**
   * The first entry that isn't before a key.
   * @param {number[]} key
   */
  async #first(key) {
    for await (const entry of this.#way.entries?.entriesFrom(key) ?? []) return entry;
    return null;
  }
}

/**
 * @param {Table} table
 * @returns {Places}
 */
function withWay(table) {
  const way = table.wayBy(PLACE);
  if (!way) throw new Unreadable(NO_INDEX);
  return { table, way };
}

/**
 * The table with the contents of places, and the column that both have.
 * @param {Table} places
 * @param {Table[]} contents
 */
function pairOf(places, contents) {
  for (const table of contents) {
    const id = places.form.columns.find((name) => !PLACE.includes(name) && name !== DATA && table.form.columns.includes(name));
    if (id && table.name !== places.name) return { table, id };
  }
  return null;
}

/**
 * What a question about a database answers. What is read beyond a page's end is a damage too.
 * @template It
 * @param {() => Promise<It>} ask
 * @returns {Promise<It>}
 */
async function told(ask) {
  try {
    return await ask();
  } catch (error) {
    if (error instanceof RangeError) throw new Unreadable('the database is damaged: a part of a page is beyond its end');
    throw error;
  }
}
