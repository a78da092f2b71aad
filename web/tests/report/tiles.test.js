// The list of a run's faults: what a search finds, and the files of it.

import assert from 'node:assert/strict';
import { test } from 'node:test';
import { gzipSync } from 'node:zlib';
import { csvOf, geojsonOf } from '../../site/report/tiles/files.js';
import { found, tableOf, tileName, tilesIn } from '../../site/report/tiles/listing.js';

const ALL = { text: '', code: 0, layer: null, block: null };
const TABLE = {
  total: 5,
  layers: ['water', 'Roads, "minor"'],
  source: [0, 0, 0, 0, 1],
  zoom: [5, 5, 5, 14, 14],
  column: [2, 2, 3, 8800, 8800],
  row: [9, 9, 9, 5370, 5370],
  code: [504, 402, 101, 504, 301],
  layer: [0, 1, -1, 0, 1],
  id: [7, 8, null, '18446744073709551615', 504],
  point: [[-157.5, 60.25], null, null, null, null],
  sentence: ['Edge 0 meets edge 2', 'A MoveTo has a count of 0', 'A varint is cut', 'Edge 1 meets edge 3', 'Tags are odd'],
};
const PATHS = ['/data/a.mbtiles', '/data/b.mbtiles'];

test('all are found where nothing is looked for', () => {
  assert.deepEqual(found(TABLE, ALL), [0, 1, 2, 3, 4]);
  assert.equal(tilesIn(TABLE, [0, 1, 2, 3, 4]), 4);
  assert.equal(tilesIn(TABLE, []), 0);
  assert.equal(tileName(TABLE, 3), '14/8800/5370');
});

test('a place, a feature\'s id, a layer and words are looked for', () => {
  const of = (text) => found(TABLE, { ...ALL, text });
  assert.deepEqual(of('5/2/9'), [0, 1]);
  assert.deepEqual(of('5/2'), [0, 1]);
  assert.deepEqual(of('14/8800'), [3, 4]);
  assert.deepEqual(of('5/2/8'), []);
  assert.deepEqual(of('8'), [1]);
  assert.deepEqual(of('18446744073709551615'), [3]);
  assert.deepEqual(of('504'), [4]);
  assert.deepEqual(of('WATER'), [0, 3]);
  assert.deepEqual(of('  edge   meets '), [0, 3]);
  assert.deepEqual(of('5/2/9 count'), [1]);
  assert.deepEqual(of('minor'), [1, 4]);
});

test('by code, layer and the tiles of a cell', () => {
  assert.deepEqual(found(TABLE, { ...ALL, code: 504 }), [0, 3]);
  assert.deepEqual(found(TABLE, { ...ALL, layer: 1 }), [1, 4]);
  assert.deepEqual(found(TABLE, { ...ALL, layer: -1 }), [2]);
  assert.deepEqual(found(TABLE, { ...ALL, block: { source: 0, zoom: 5, columns: [2, 3], rows: [8, 9] } }), [0, 1, 2]);
  assert.deepEqual(found(TABLE, { ...ALL, block: { source: 1, zoom: 14, columns: [8800, 8800], rows: [5370, 5370] } }), [4]);
  assert.deepEqual(found(TABLE, { ...ALL, code: 504, block: { source: 0, zoom: 5, columns: [3, 3], rows: [9, 9] } }), []);
});

test('CSV', () => {
  const lines = csvOf(TABLE, [0, 1, 3], PATHS).split('\r\n');
  assert.deepEqual(lines, [
    'source,zoom,column,row,layer,feature_id,code,sentence,longitude,latitude',
    '/data/a.mbtiles,5,2,9,water,7,504,Edge 0 meets edge 2,-157.5,60.25',
    '/data/a.mbtiles,5,2,9,"Roads, ""minor""",8,402,A MoveTo has a count of 0,,',
    '/data/a.mbtiles,14,8800,5370,water,18446744073709551615,504,Edge 1 meets edge 3,,',
    '',
  ]);
});

test('a name in CSV is no formula of a spreadsheet', () => {
  const [, line] = csvOf({ ...TABLE, layers: ['=HYPERLINK("https://example.org")', '-1'] }, [0, 1], ['=a.mbtiles', 'b.mbtiles']).split('\r\n');
  assert.equal(line, `'=a.mbtiles,5,2,9,"'=HYPERLINK(""https://example.org"")",7,504,Edge 0 meets edge 2,-157.5,60.25`);
});

test('GeoJSON: points, and boxes against the clock', () => {
  const { type, features } = JSON.parse(geojsonOf(TABLE, [0, 2], PATHS));
  assert.equal(type, 'FeatureCollection');
  assert.deepEqual(features[0].geometry, { type: 'Point', coordinates: [-157.5, 60.25] });
  assert.deepEqual(features[0].properties, {
    tile: '5/2/9', zoom: 5, column: 2, row: 9, layer: 'water', feature_id: 7, code: 504, sentence: 'Edge 0 meets edge 2', source: '/data/a.mbtiles',
  });
  const [ring] = features[1].geometry.coordinates;
  assert.deepEqual([ring.length, ring[0]], [5, ring[4]]);
  // (the north of row 8 of 16 rows is the equator's; row 9 of 32 rows is in the north)
  assert.deepEqual([ring[0][0], ring[2][0]], [(3 / 32) * 360 - 180, (4 / 32) * 360 - 180]);
  assert.ok(ring[0][1] < ring[2][1] && Math.abs(ring[2][1] - 61.606396) < 1e-5 && Math.abs(ring[0][1] - 55.776573) < 1e-5, String(ring));
  assert.equal(features[1].properties.layer, null);
  assert.deepEqual(JSON.parse(geojsonOf(TABLE, [], PATHS)).features, []);
});

test('100,000 faults are looked through in a moment', async () => {
  const count = 100000, many = { ...TABLE, total: count };
  for (const name of ['source', 'zoom', 'column', 'row', 'code', 'layer', 'id', 'point', 'sentence']) {
    many[name] = Array.from({ length: count }, (_, at) => (name === 'column' ? at : TABLE[name][at % 5]));
  }
  const table = await tableOf(gzipSync(JSON.stringify(many)).toString('base64'));
  assert.equal(found(table, { ...ALL, text: 'edge meets' }).length, 40000);
  assert.deepEqual(found(table, { ...ALL, text: '5/99995' }), [99995]);
});
