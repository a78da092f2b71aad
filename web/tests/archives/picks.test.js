// Tiles that are picked in an archive, also in one that is damaged.
import assert from 'node:assert/strict';
import { test } from 'node:test';
import { openArchive } from '../../site/app/archives/open.js';
import { Picks } from '../../site/app/archives/picks.js';
import { Unreadable } from '../../site/app/files/read.js';
import { TILES, bytesOf } from './written.js';

const PLACES = Array.from({ length: 4 }, (_, column) => ({ zoom: 2, column, row: 0 }));

/** An archive whose tile in column 2 can't be read, and which has none in column 3. */
function damaged() {
  const asked = /** @type {number[]} */ ([]);
  const archive = { tile: async (/** @type {import('../../site/app/archives/open.js').Place} */ { column }) => {
    asked.push(column);
    if (column === 2) throw new Unreadable('it is damaged');
    return column === 3 ? null : new Blob([Uint8Array.of(column)]);
  } };
  return { picks: new Picks(archive, 'a.mbtiles'), asked };
}

test('all tiles but those that can\'t be read are picked, and each once', async () => {
  const { picks, asked } = damaged();
  const { entries, unread } = await picks.pickAll(PLACES);
  assert.deepEqual(entries.map(({ name, state, place }) => [name, state, place?.column]), [['a.mbtiles 2/0/0', 'waiting', 0], ['a.mbtiles 2/1/0', 'waiting', 1]]);
  assert.equal(unread, 1);
  assert.deepEqual(PLACES.map((place) => picks.reasonOf(place)), [null, null, 'it is damaged', null]);
  assert.deepEqual(PLACES.map((place) => picks.entryOf(place)?.place?.column ?? null), [0, 1, null, null]);
  asked.length = 0;
  assert.deepEqual(await picks.pickAll(PLACES), { entries: [], unread: 1 });
  assert.deepEqual(asked, [2, 3]);
});

test('a tile that is picked again while it is read is one file', async () => {
  const { picks } = damaged();
  const both = await Promise.all([picks.pickAll(PLACES), picks.pickAll(PLACES), picks.pick(PLACES[0])]);
  assert.equal([...both[0].entries, ...both[1].entries, ...(both[2] ? [both[2]] : [])].length, 2);
  assert.equal(await picks.pick(PLACES[0]), null);
  await assert.rejects(picks.pick(PLACES[2]), /it is damaged/);
  assert.equal(await picks.pick(PLACES[3]), null);
  picks.clear();
  assert.equal(picks.entryOf(PLACES[0]), null);
  assert.equal(picks.reasonOf(PLACES[2]), null);
});

test('of a database with one damaged tile all others are picked', async () => {
  const bytes = bytesOf('plain.mbtiles'), tiles = TILES['plain.mbtiles'], page = 4096;
  const large = tiles.findIndex(({ stored }) => stored.length > 100_000), inside = Buffer.from(bytes).indexOf(tiles[large].stored.subarray(50_000, 50_064));
  // (a page with a part of it begins with the number of the next one)
  new DataView(bytes.buffer).setUint32(Math.floor(inside / page) * page, 0xffffff);
  const picks = new Picks(await openArchive('mbtiles', new Blob([bytes])), 'plain.mbtiles');
  const { entries, unread } = await picks.pickAll(tiles.map(({ place }) => place));
  assert.deepEqual([entries.length, unread], [tiles.length - 1, 1]);
  assert.match(String(picks.reasonOf(tiles[large].place)), /the database is damaged/);
});
