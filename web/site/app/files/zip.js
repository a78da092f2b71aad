// A ZIP archive of files as they are, without compression (PKWARE's APPNOTE.TXT 6.3, sections 4.3.7, 4.3.12 and 4.3.16).

import { Unreadable } from './read.js';

/** @typedef {{name: string, bytes: Uint8Array}} Member */
/** @typedef {{name: Uint8Array, bytes: Uint8Array, sum: number, at: number}} Placed */

const LOCAL = 0x04034b50, CENTRAL = 0x02014b50, END = 0x06054b50;
const VERSION = 20, UTF8_NAMES = 1 << 11, STORED = 0;
const FIRST_DATE = (1 << 5) | 1; // 1 January 1980, the first one that the format has
const MOST_MEMBERS = 0xffff, MOST_BYTES = 0xffffffff; // (more need ZIP64)

const SUMS = Uint32Array.from({ length: 256 }, (_, byte) => {
  let sum = byte;
  for (let bit = 0; bit < 8; bit += 1) sum = sum & 1 ? (sum >>> 1) ^ 0xedb88320 : sum >>> 1;
  return sum;
});

/**
 * The cyclic redundancy check of 32 bits.
 * @param {Uint8Array} bytes
 */
export function checkSum(bytes) {
  let sum = 0xffffffff;
  for (let at = 0; at < bytes.length; at += 1) sum = SUMS[(sum ^ bytes[at]) & 255] ^ (sum >>> 8);
  return (sum ^ 0xffffffff) >>> 0;
}

/**
 * @param {Member[]} members with different names
 * @returns {Blob}
 */
export function zip(members) {
  const parts = [], placed = /** @type {Placed[]} */ ([]);
  let at = 0;
  for (const { name, bytes } of members) {
    const one = { name: new TextEncoder().encode(name), bytes, sum: checkSum(bytes), at };
    parts.push(localHead(one), bytes);
    placed.push(one);
    at += 30 + one.name.length + bytes.length;
  }
  const directory = placed.map(centralHead), length = directory.reduce((sum, { byteLength }) => sum + byteLength, 0);
  if (members.length > MOST_MEMBERS || at + length > MOST_BYTES) throw new Unreadable('an archive has at most 65,535 files and 4 GiB');
  return new Blob([...parts, ...directory, endRecord(placed.length, length, at)], { type: 'application/zip' });
}

/**
 * Numbers of two or four bytes, least byte first, and then bytes.
 * @param {[size: 2|4, number: number][]} numbers
 * @param {Uint8Array} [after]
 * @returns {Uint8Array}
 */
function record(numbers, after = new Uint8Array()) {
  const length = numbers.reduce((sum, [size]) => sum + size, 0);
  const bytes = new Uint8Array(length + after.length), view = new DataView(bytes.buffer);
  let at = 0;
  for (const [size, number] of numbers) {
    if (size === 2) view.setUint16(at, number, true);
    else view.setUint32(at, number, true);
    at += size;
  }
  bytes.set(after, length);
  return bytes;
}

/**
 * What the heads in front of a file and in the directory have in common.
 * @param {Placed} file
 * @returns {[2|4, number][]}
 */
function common({ name, bytes, sum }) {
  return [[2, VERSION], [2, UTF8_NAMES], [2, STORED], [2, 0], [2, FIRST_DATE], [4, sum], [4, bytes.length], [4, bytes.length], [2, name.length], [2, 0]];
}

/** @param {Placed} file */
function localHead(file) {
  return record([[4, LOCAL], ...common(file)], file.name);
}

/** @param {Placed} file */
function centralHead(file) {
  return record([[4, CENTRAL], [2, VERSION], ...common(file), [2, 0], [2, 0], [2, 0], [4, 0], [4, file.at]], file.name);
}

/**
 * @param {number} count of the members
 * @param {number} length of the directory
 * @param {number} at where it begins
 */
function endRecord(count, length, at) {
  return record([[4, END], [2, 0], [2, 0], [2, count], [2, count], [4, length], [4, at], [2, 0]]);
}
