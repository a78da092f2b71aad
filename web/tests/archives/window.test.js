// Which tiles are seen in the grid of an archive, and the ids of PMTiles.
import assert from 'node:assert/strict';
import { test } from 'node:test';
import { middleOf } from '../../site/app/archives/middle.js';
import { LAST_ZOOM, firstId, idOf, placeOf } from '../../site/app/archives/pmtiles/ids.js';
import { atZoom, isIn, middlePlace, movedBy, nearest, placeOfText, placeText, placesIn, windowAround } from '../../site/app/archives/window.js';

test('a window has a tile in its middle, and nothing beside the earth', () => {
  assert.deepEqual(windowAround({ zoom: 0, column: 0, row: 0 }), { zoom: 0, left: 0, top: 0, side: 1 });
  assert.deepEqual(windowAround({ zoom: 3, column: 7, row: 2 }), { zoom: 3, left: 0, top: 0, side: 8 });
  assert.deepEqual(windowAround({ zoom: 14, column: 8802, row: 5373 }), { zoom: 14, left: 8796, top: 5367, side: 12 });
  assert.deepEqual(windowAround({ zoom: 14, column: 2, row: 16383 }), { zoom: 14, left: 0, top: 16372, side: 12 });
  assert.deepEqual(movedBy({ zoom: 14, left: 8796, top: 3, side: 12 }, 6, -6), { zoom: 14, left: 8802, top: 0, side: 12 });
});

test('the places of a window', () => {
  const window = windowAround({ zoom: 4, column: 8, row: 8 }), places = placesIn(window);
  assert.equal(places.length, 144);
  assert.deepEqual([places[0], places[12], places[143]].map(placeText), ['4/2/2', '4/2/3', '4/13/13']);
  assert.ok(places.every((place) => isIn(window, place)));
  for (const name of ['4/1/5', '4/14/5', '4/5/1', '4/5/14', '5/5/5']) assert.ok(!isIn(window, /** @type {any} */ (placeOfText(name))), name);
});

test('the same part of the earth at another zoom', () => {
  const zurich = { zoom: 14, column: 8582, row: 5739 };
  assert.deepEqual(atZoom(zurich, 12), { zoom: 12, column: 2145, row: 1434 });
  assert.deepEqual(atZoom({ zoom: 12, column: 2145, row: 1434 }, 14), { zoom: 14, column: 8582, row: 5738 });
  assert.deepEqual(atZoom(zurich, 14), zurich);
  assert.deepEqual(atZoom({ zoom: 0, column: 0, row: 0 }, 30), { zoom: 30, column: 2 ** 29, row: 2 ** 29 });
});

test('the nearest place', () => {
  const at = (/** @type {number} */ column, /** @type {number} */ row) => ({ zoom: 9, column, row });
  assert.deepEqual(nearest([at(1, 1), at(5, 5), at(6, 2)], at(5, 4)), at(5, 5));
  assert.equal(nearest([], at(0, 0)), null);
  assert.deepEqual(middlePlace([at(1, 1), at(5, 8), at(2, 3)]), at(3, 5));
  assert.deepEqual(middlePlace([at(7, 7)]), at(7, 7));
});

test('places that are typed', () => {
  assert.deepEqual(placeOfText(' 14/8802/5373 '), { zoom: 14, column: 8802, row: 5373 });
  for (const text of ['', '14', '14/8802', '1/2/0', '31/0/0', '14/8802/-1', '14/8802/5373.mvt', 'a/b/c']) assert.equal(placeOfText(text), null, text);
});

test('ids as in the specification, and back', () => {
  /** @type {[number, number, number, number][]} zoom, column, row and id: the examples of the specification, and the corners of zoom 2 */
  const known = [[0, 0, 0, 0], [1, 0, 0, 1], [1, 0, 1, 2], [1, 1, 1, 3], [1, 1, 0, 4], [2, 0, 0, 5], [12, 3423, 1763, 19078479], [2, 3, 0, 20]];
  for (const [zoom, column, row, id] of known) assert.equal(idOf(zoom, column, row), id);
  for (let zoom = 0; zoom < 5; zoom += 1) {
    const ids = placesIn({ zoom, left: 0, top: 0, side: 2 ** zoom }).map(({ column, row }) => idOf(zoom, column, row)).sort((a, b) => a - b);
    assert.deepEqual(ids, ids.map((_, at) => firstId(zoom) + at));
  }
  const far = { zoom: LAST_ZOOM, column: 2 ** LAST_ZOOM - 3, row: 12345678 };
  for (const { zoom, column, row } of [far, { zoom: 14, column: 8802, row: 5373 }]) assert.deepEqual(placeOf(zoom, idOf(zoom, column, row)), { column, row });
  assert.ok(Number.isSafeInteger(firstId(LAST_ZOOM + 1)) && !Number.isSafeInteger(firstId(LAST_ZOOM + 2)));
});

test('a place in the middle of those where there is something', async () => {
  const among = (/** @type {number[]} */ ...places) => middleOf(0, 1000, async (at) => places.find((place) => place >= at) ?? null);
  assert.equal(await among(), null);
  assert.equal(await among(7), 7);
  assert.equal(await among(10, 11, 12), 11);
  assert.equal(await among(0, 600, 999), 600);
  assert.equal(await among(3, 900), 900);
});
