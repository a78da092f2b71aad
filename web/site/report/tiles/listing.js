// The faults of a run, as the report has them, and those of them that a search finds.

import { bytesOfBase64 } from '../../app/files/link.js';
import { unpack } from '../../app/files/packing.js';

/**
 * A column of a table for each thing that is known of a fault; `layer` is a number of `layers`, or -1, and `id` may be a text where it has
 * more digits than a number holds. `total` is how many faults there are, of which the first are in the table.
 * @typedef {object} Table
 * @property {number} total
 * @property {string[]} layers
 * @property {number[]} source
 * @property {number[]} zoom
 * @property {number[]} column
 * @property {number[]} row
 * @property {number[]} code
 * @property {number[]} layer
 * @property {(number|string|null)[]} id
 * @property {([number, number]|null)[]} point longitude and latitude
 * @property {string[]} sentence
 */
/** @typedef {{source: number, zoom: number, columns: [number, number], rows: [number, number]}} Block tiles from the first to the last */
/**
 * What is looked for: words, a code or 0, a layer's number or null for any, and the tiles of a cell of the map or null for all.
 * @typedef {{text: string, code: number, layer: number|null, block: Block|null}} Wanted
 */
/** @typedef {(at: number) => boolean} Test */

const ADDRESS = /^\d+(\/\d+){1,2}$/, NUMBER = /^\d+$/;

/**
 * @param {string} packed
 * @returns {Promise<Table>}
 */
export async function tableOf(packed) {
  return JSON.parse(new TextDecoder().decode(await unpack(bytesOfBase64(packed))));
}

/**
 * The faults that are looked for, by their numbers.
 * @param {Table} table
 * @param {Wanted} wanted
 * @returns {number[]}
 */
export function found(table, { text, code, layer, block }) {
  const tests = text.trim().split(/\s+/).filter(Boolean).map((word) => testOf(table, word));
  if (code) tests.push((at) => table.code[at] === code);
  if (layer !== null) tests.push((at) => table.layer[at] === layer);
  if (block) tests.push((at) => isIn(table, at, block));
  const listed = [];
  for (let at = 0; at < table.code.length; at += 1) if (tests.every((test) => test(at))) listed.push(at);
  return listed;
}

/**
 * A word is a place, z/x/y or z/x; a number is a feature's id or a part of another text; all else is looked for in layers and sentences.
 * @param {Table} table
 * @param {string} word
 * @returns {Test}
 */
function testOf(table, word) {
  if (ADDRESS.test(word)) {
    const [zoom, column, row] = word.split('/').map(Number);
    return (at) => table.zoom[at] === zoom && table.column[at] === column && (row === undefined || table.row[at] === row);
  }
  if (NUMBER.test(word)) return (at) => String(table.id[at]) === word;
  const lower = word.toLowerCase(), layers = new Set(table.layers.flatMap((name, at) => (name.toLowerCase().includes(lower) ? [at] : [])));
  return (at) => layers.has(table.layer[at]) || table.sentence[at].toLowerCase().includes(lower);
}

/**
 * @param {Table} table
 * @param {number} at
 * @param {Block} block
 */
function isIn(table, at, { source, zoom, columns, rows }) {
  return table.source[at] === source && table.zoom[at] === zoom && table.column[at] >= columns[0] && table.column[at] <= columns[1]
    && table.row[at] >= rows[0] && table.row[at] <= rows[1];
}

/**
 * How many different tiles these faults are in. (Those of a tile stand together.)
 * @param {Table} table
 * @param {number[]} listed
 */
export function tilesIn(table, listed) {
  let count = 0;
  for (let k = 0; k < listed.length; k += 1) if (k === 0 || !isSameTile(table, listed[k], listed[k - 1])) count += 1;
  return count;
}

/**
 * @param {Table} table
 * @param {number} one
 * @param {number} other
 */
function isSameTile({ source, zoom, column, row }, one, other) {
  return row[one] === row[other] && column[one] === column[other] && zoom[one] === zoom[other] && source[one] === source[other];
}

/**
 * The name of a fault's tile: z/x/y.
 * @param {Table} table
 * @param {number} at
 */
export function tileName({ zoom, column, row }, at) {
  return `${zoom[at]}/${column[at]}/${row[at]}`;
}
