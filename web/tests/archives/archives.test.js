// MBTiles files and PMTiles archives as Python's sqlite3 and the tests of the planet run write them, and damaged ones.
import assert from 'node:assert/strict';
import { test } from 'node:test';
import { openArchive, sorted } from '../../site/app/archives/open.js';
import { Unreadable } from '../../site/app/files/read.js';
import { TILES, bytesOf } from './written.js';

/** @typedef {import('../../site/app/archives/open.js').Place} Place */

/**
 * @param {string} name
 * @param {Uint8Array} [bytes]
 */
function opened(name, bytes = bytesOf(name)) {
  return openArchive(name.endsWith('.pmtiles') ? 'pmtiles' : 'mbtiles', new Blob([bytes]));
}

/** @param {Blob|null} blob */
async function contentOf(blob) {
  return blob && new Uint8Array(await blob.arrayBuffer());
}

for (const [name, tiles] of Object.entries(TILES)) {
  test(`${name}: each tile is found, and no other`, async () => {
    const archive = await opened(name);
    assert.deepEqual(await archive.zooms(), [...new Set(tiles.map(({ place }) => place.zoom))].sort((a, b) => a - b));
    const some = tiles.filter((_, at) => tiles.length < 1000 || at % 97 === 0);
    for (const { place, stored } of some) assert.deepEqual(await contentOf(await archive.tile(place)), stored, JSON.stringify(place));
    for (const place of [{ zoom: 0, column: 0, row: 0 }, { zoom: 3, column: 4, row: 3 }, { zoom: 9, column: 300, row: 200 }, { zoom: 14, column: 8804, row: 5373 }, { zoom: 26, column: 5, row: 9 }]) {
      const is = tiles.some(({ place: it }) => it.zoom === place.zoom && it.column === place.column && it.row === place.row);
      assert.equal((await archive.tile(place)) !== null, is, JSON.stringify(place));
    }
  });

  test(`${name}: what of a window is there, and a tile in the middle of each zoom`, async () => {
    const archive = await opened(name);
    for (const zoom of await archive.zooms()) {
      const of = tiles.filter(({ place }) => place.zoom === zoom).map(({ place }) => place), middle = await archive.middle(zoom);
      assert.ok(middle && of.some(({ column, row }) => column === middle.column && row === middle.row));
      const window = Array.from({ length: 144 }, (_, at) => ({ zoom, column: middle.column - 6 + (at % 12), row: middle.row - 6 + Math.floor(at / 12) }))
        .filter(({ column, row }) => Math.min(column, row) >= 0 && Math.max(column, row) < 2 ** zoom);
      const expected = window.filter((it) => of.some(({ column, row }) => column === it.column && row === it.row));
      assert.deepEqual(await archive.present(window), expected);
    }
  });
}

test('a tile in the middle has as many on each side', async () => {
  const { column } = /** @type {Place} */ (await (await opened('many.mbtiles')).middle(9));
  assert.ok(column > 90 && column < 110);
  assert.deepEqual(await (await opened('plain.mbtiles')).middle(10), { column: 534, row: 353 });
});

test('a database that may have a log beside it says so', async () => {
  const bytes = bytesOf('plain.mbtiles');
  assert.equal((await opened('plain.mbtiles', bytes)).note, '');
  bytes.fill(2, 18, 20); // (the versions of the format for writing and reading: 2 for a log)
  assert.match((await opened('plain.mbtiles', bytes)).note, /whose name ends with -wal/);
});

test('what has no tiles, or no index for them, is told', async () => {
  await assert.rejects(opened('no_index.mbtiles'), /^Error: it has no index for its tiles; make one: CREATE UNIQUE INDEX/);
  await assert.rejects(opened('backwards.mbtiles'), /it has no index/);
  await assert.rejects(opened('other.mbtiles'), /the database has no tiles/);
  await assert.rejects(opened('empty.mbtiles'), /the archive has no tile/);
  await assert.rejects(opened('empty.pmtiles'), /the archive has no tile/);
});

/** @type {[what: string, at: number, byte: number, said: RegExp][]} bytes of the header */
const OTHERS = [
  ['another version', 7, 2, /version 2, and only version 3/], ['directories by brotli', 97, 3, /its directories are packed by brotli/],
  ['tiles by Zstandard', 98, 4, /its tiles are packed by Zstandard/], ['pictures', 99, 2, /but PNG pictures/], ['MapLibre tiles', 99, 6, /no Mapbox vector tiles, but MapLibre tiles/],
  ['a section beyond the end', 62, 1, /is beyond its end/], ['a section that no file has', 63, 255, /is beyond its end/],
];
for (const [what, at, byte, said] of OTHERS) {
  test(`a PMTiles archive with ${what} is refused`, async () => {
    const bytes = bytesOf('plain.pmtiles');
    bytes[at] = byte;
    await assert.rejects(opened('plain.pmtiles', bytes), said);
  });
}

/** @type {Record<string, RegExp>} */
const HOSTILE = {
  circle: /more than 3 directories below the root/, count: /a directory is cut/, overlap: /overlap, or are out of order/, number: /a number of a directory is too large/,
  nothing: /has no bytes/, bomb: /unpacks to more than 2,097,152 bytes/, cut: /a directory is cut/, more: /after the end of a directory/,
  leaf: /a leaf directory is beyond the end/, empty_leaves: /too many leaf directories have no tile/,
};
for (const [name, said] of Object.entries(HOSTILE)) {
  test(`a hostile PMTiles archive is refused: ${name}`, () => assert.rejects(opened(`${name}.pmtiles`), said));
}

test('a tile beyond the end of its part of a PMTiles archive is told when it is asked for', async () => {
  const archive = await opened('far.pmtiles');
  await assert.rejects(archive.tile({ zoom: 0, column: 0, row: 0 }), /its bytes are beyond the end/);
});

/**
 * A database with pages of 512 bytes, of whose trees all inner pages lead to themselves.
 * @param {number} kind of the inner pages
 */
function circling(kind) {
  const bytes = bytesOf('many.mbtiles'), view = new DataView(bytes.buffer);
  let count = 0;
  for (let begin = 512; begin < bytes.length; begin += 512) {
    if (bytes[begin] !== kind || view.getUint16(begin + 3) > 100) continue;
    const own = begin / 512 + 1;
    view.setUint32(begin + 8, own);
    for (let at = 0; at < view.getUint16(begin + 3); at += 1) view.setUint32(begin + view.getUint16(begin + 12 + 2 * at), own);
    count += 1;
  }
  assert.ok(count > 10);
  return bytes;
}

test('trees of a database that lead round in circles come to an end', async () => {
  await assert.rejects(opened('many.mbtiles', circling(2)), /a tree of it leads nowhere/);
  const archive = await opened('many.mbtiles', circling(5));
  await assert.rejects(archive.tile(TILES['many.mbtiles'][0].place), /a tree of it leads nowhere/);
});

test('what could not be read is read again when it is asked for again', async () => {
  for (const name of ['leaves.pmtiles', 'many.mbtiles']) {
    let isThere = true;
    const whole = new Blob([bytesOf(name)]), { place } = TILES[name][TILES[name].length >> 1];
    const slice = (/** @type {number} */ begin, /** @type {number} */ end) => {
      const part = whole.slice(begin, end);
      return { arrayBuffer: () => (isThere ? part.arrayBuffer() : Promise.reject(new Error('the disk is gone'))) };
    };
    const archive = await openArchive(name.endsWith('.pmtiles') ? 'pmtiles' : 'mbtiles', /** @type {any} */ ({ size: whole.size, slice }));
    isThere = false;
    await assert.rejects(archive.present([place]), /the browser could not read the file/);
    isThere = true;
    assert.deepEqual(await archive.present([place]), [place], name);
  }
});

test('archives are told from tiles by their bytes', async () => {
  const sources = ['plain.pmtiles', 'plain.mbtiles', 'tiles.json'].map((name) => ({ name: `a/${name}`, file: new Blob([bytesOf(name)]) }));
  const named = { name: 'a.mvt', file: new Blob([bytesOf('plain.mbtiles')]) };
  const { archives, tiles } = await sorted([...sources, named]);
  assert.deepEqual(archives.map(({ kind, source }) => [kind, source.name]), [['pmtiles', 'a/plain.pmtiles'], ['mbtiles', 'a/plain.mbtiles']]);
  assert.deepEqual(tiles.map(({ name }) => name), ['a/tiles.json', 'a.mvt']);
});

/**
 * Numbers that look random, the same ones in each run.
 * @param {number} seed
 */
function random(seed) {
  let state = seed;
  return (/** @type {number} */ below) => {
    state = (Math.imul(state, 1664525) + 1013904223) >>> 0;
    return Math.floor((state / 2 ** 32) * below);
  };
}

/**
 * Asks an archive all that the page asks. What it can't answer it has to tell.
 * @param {string} name
 * @param {Uint8Array} bytes
 */
async function asked(name, bytes) {
  try {
    const archive = await opened(name, bytes);
    for (const zoom of (await archive.zooms()).slice(0, 4)) {
      const middle = await archive.middle(zoom);
      if (middle) await archive.tile({ zoom, ...middle });
    }
    await archive.present(TILES[name].slice(0, 20).map(({ place }) => place));
    return 1;
  } catch (error) {
    assert.ok(error instanceof Unreadable, String(error instanceof Error ? error.stack : error));
    return 0;
  }
}

// (the trees of a database begin in its first pages, and the directories of an archive after its header)
for (const [name, begin] of /** @type {[string, number][]} */ ([['small_pages.mbtiles', 0], ['images.mbtiles', 0], ['shallow.mbtiles', 0], ['plain.pmtiles', 127], ['leaves.pmtiles', 8]])) {
  test(`${name}: damaged bytes end in an answer or in words`, async () => {
    const whole = bytesOf(name), below = random(7), answered = [0, 0];
    for (let round = 0; round < 50; round += 1) {
      const bytes = round % 5 ? whole.slice() : whole.slice(0, below(whole.length));
      for (let count = 1 + below(8); count; count -= 1) bytes[begin + below(Math.min(8192, whole.length - begin))] = below(256);
      answered[await asked(name, bytes)] += 1;
    }
    assert.ok(answered[0] > 5 && answered[0] < 50, String(answered));
  });
}
