// The map of a run's report: which cell has which look, and what is said of it.

import assert from 'node:assert/strict';
import { test } from 'node:test';
import { gzipSync } from 'node:zlib';
import { cellsOf, lookOf, picturesIn, strengthOf } from '../../site/report/map/cells.js';
import { sizeOfMap } from '../../site/report/map/draw.js';
import { cellText, rangeText, scaleText } from '../../site/report/map/words.js';

const CLASSES = [{ name: 'wire', first: 100 }, { name: 'layers', first: 200 }, { name: 'tags', first: 300 }, { name: 'polygons', first: 500 }];
const TITLES = { 101: 'Varint ends too early', 504: 'Edges that meet' };
// single tiles, and blocks of 4 x 4 of which the last ones are cut
const ONE = { source: 0, sourceName: '', zoom: 3, shift: 0, firstColumn: 2, lastColumn: 4, firstRow: 5, lastRow: 6, columns: 3, rows: 2, cells: '' };
const BLOCKS = { ...ONE, zoom: 12, shift: 2, firstColumn: 100, lastColumn: 109, firstRow: 40, lastRow: 45, columns: 3, rows: 2 };

/** The numbers of six cells, where those that aren't given are 0. */
const cells = (given) => ({ ...Object.fromEntries(['tiles', 'faulty', 'unjudged', 'worst', 'lost'].map((it) => [it, Array(6).fill(0)])), ...given });

test('a cell has the look of its worst code, or that of tiles that weren\'t judged', () => {
  const of = cells({ tiles: [1, 1, 1, 1, 0, 0], unjudged: [0, 0, 1, 1, 0, 0], worst: [101, 507, 304, 0, 0, 0], lost: [0, 0, 0, 0, 0, 1] });
  assert.deepEqual([0, 1, 2, 3, 4, 5].map((at) => lookOf(of, at, CLASSES)), ['wire', 'polygons', 'tags', 'unjudged', 'empty', 'unjudged']);
  assert.equal(lookOf(cells({ tiles: [2, 0, 0, 0, 0, 0] }), 0, CLASSES), 'valid');
});

test('a colour is paler where few tiles have a fault', () => {
  const of = cells({ tiles: [1, 100, 100, 1000, 5, 0], faulty: [1, 10, 9, 9, 0, 0], worst: [504, 504, 504, 504, 0, 0] });
  assert.deepEqual([0, 1, 2, 3, 4].map((at) => strengthOf(of, at)), [1, 1, 0.75, 0.5, 1]);
});

test('the range of a cell', () => {
  assert.equal(rangeText(ONE, 2, 1), '3/4/6');
  assert.equal(rangeText(BLOCKS, 0, 0), '12/100-103/40-43');
  assert.equal(rangeText(BLOCKS, 2, 1), '12/108-109/44-45');
});

test('what is said of a tile', () => {
  const of = cells({ tiles: [1, 1, 1, 2, 0, 0], faulty: [0, 1, 0, 1, 0, 0], unjudged: [0, 0, 1, 0, 0, 0], worst: [0, 504, 0, 101, 0, 0], lost: [0, 0, 0, 0, 1, 0] });
  const said = [[0, 0], [1, 0], [2, 0], [0, 1], [1, 1], [2, 1]].map(([column, row]) => cellText(ONE, of, TITLES, column, row));
  assert.deepEqual(said, [
    'Tile 3/2/5: valid.',
    'Tile 3/3/5: code 504 (Edges that meet).',
    'Tile 3/4/5: not judged.',
    'Tiles 3/2/6: 2 tiles, 1 with a fault, the worst code is 101 (Varint ends too early).',
    'Tile 3/3/6: not in the source. A part of the run that wasn\'t judged has tiles here or near.',
    'Tile 3/4/6: not in the source.',
  ]);
});

test('what is said of a block', () => {
  const of = cells({ tiles: [16, 8, 1200, 0, 0, 0], faulty: [0, 3, 1100, 0, 0, 0], unjudged: [0, 2, 0, 0, 0, 0], worst: [0, 504, 101, 0, 0, 0] });
  const said = [0, 1, 2].map((column) => cellText(BLOCKS, of, TITLES, column, 0));
  assert.deepEqual(said, [
    'Tiles 12/100-103/40-43: 16 tiles, none with a fault.',
    'Tiles 12/104-107/40-43: 8 tiles, 3 with a fault, the worst code is 504 (Edges that meet), 2 not judged.',
    'Tiles 12/108-109/40-43: 1,200 tiles, 1,100 with a fault, the worst code is 101 (Varint ends too early).',
  ]);
  assert.equal(cellText(BLOCKS, of, TITLES, 0, 1), 'Tiles 12/100-103/44-45: not in the source.');
});

test('what a cell is', () => {
  assert.equal(scaleText(ONE), 'Zoom 3: each cell is one tile. 3 columns and 2 rows of cells, north is up.');
  assert.equal(scaleText({ ...BLOCKS, columns: 1 }), 'Zoom 12: each cell is a block of 4 by 4 tiles. 1 column and 2 rows of cells, north is up.');
});

test('the pictures of a cell are those of its source, zoom and tiles', () => {
  const at = (id, source, zoom, column, row) => ({ id, source, zoom, column, row });
  const pictures = [at('a', 0, 12, 104, 43), at('b', 1, 12, 104, 43), at('c', 0, 11, 104, 43), at('d', 0, 12, 107, 40), at('e', 0, 12, 108, 40)];
  const found = picturesIn({ classes: CLASSES, titles: TITLES, zooms: [], pictures }, BLOCKS, 1, 0);
  assert.deepEqual(found.map(({ id }) => id), ['a', 'd']);
});

test('the map is as large as there is room for', () => {
  assert.deepEqual(sizeOfMap({ ...ONE, columns: 256, rows: 256 }, 330), { width: 330, height: 330 });
  assert.deepEqual(sizeOfMap({ ...ONE, columns: 100, rows: 10 }, 550), { width: 500, height: 50 });
  assert.deepEqual(sizeOfMap({ ...ONE, columns: 1, rows: 1 }, 550), { width: 48, height: 48 });
  assert.deepEqual(sizeOfMap({ ...ONE, columns: 2, rows: 256 }, 550), { width: 5, height: 620 });
});

test('cells are unpacked', async () => {
  const of = cells({ tiles: [1, 2, 3, 4, 5, 6] });
  assert.deepEqual(await cellsOf({ ...ONE, cells: gzipSync(JSON.stringify(of)).toString('base64') }), of);
});
