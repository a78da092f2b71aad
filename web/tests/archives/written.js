// The archives that archives.py writes, in a folder of their own while the tests run.

import { execFileSync } from 'node:child_process';
import { mkdtempSync, readFileSync, rmSync } from 'node:fs';
import { tmpdir } from 'node:os';
import { join } from 'node:path';
import { after } from 'node:test';

/** @typedef {{place: import('../../site/app/archives/open.js').Place, stored: Uint8Array}} Tile */

const folder = mkdtempSync(join(tmpdir(), 'archives-'));
after(() => rmSync(folder, { recursive: true }));
execFileSync('python3', [new URL('archives.py', import.meta.url).pathname, folder]);

/** @type {Record<string, Tile[]>} the tiles of each archive, by its name */
export const TILES = Object.fromEntries(Object.entries(JSON.parse(readFileSync(join(folder, 'tiles.json'), 'utf8'))).map(([name, tiles]) => [
  name,
  /** @type {[number, number, number, string][]} */ (tiles).map(([zoom, column, row, stored]) => ({ place: { zoom, column, row }, stored: new Uint8Array(Buffer.from(stored, 'base64')) })),
]));

/**
 * @param {string} name
 * @returns {Uint8Array}
 */
export function bytesOf(name) {
  return new Uint8Array(readFileSync(join(folder, name)));
}
