import assert from 'node:assert/strict';
import { test } from 'node:test';
import { mapOfTile, pictureOfFeature } from '../../src/picture/index.js';
import { elementsOf, positionsOf } from './tools.js';

/** @typedef {import('../../src/tile/layers.js').Feature} Feature */
/** @typedef {import('../../src/tile/layers.js').Layer} Layer */

const POINTS = { id: null, tags: [], type: 1, geometry: [17, 10, 14, 3, 9] }; // (5,7), (3,2)
const LINE = { id: null, tags: [], type: 2, geometry: [9, 4, 4, 18, 0, 16, 16, 0] }; // (2,2), (2,10), (10,10)
const TRIANGLE = { id: null, tags: [], type: 3, geometry: [9, 6, 12, 18, 10, 12, 24, 44, 15] }; // (3,6), (8,12), (20,34)
const UNKNOWN = { id: null, tags: [], type: 0, geometry: [9, 4, 4] };

/**
 * @param {number} extent
 * @param {Feature[]} features
 * @returns {Layer}
 */
function layer(extent, features) {
  return { name: 'a', version: 2, extent, keys: [], values: [], features };
}

/** @param {Record<string, string|number>[]} elements */
function names(elements) {
  return elements.map((it) => [it['data-layer'], it['data-feature']]);
}

test('each feature of a known type is an element that names it', () => {
  const picture = mapOfTile({ layers: [layer(32, [POINTS, UNKNOWN, LINE]), layer(32, [TRIANGLE])] });
  assert.deepEqual(names(elementsOf(picture, picture.tile).feature), [[0, 0], [0, 2], [1, 0]]);
  assert.equal(picture.words, 'The map has 3 features of 2 layers.');
  assert.deepEqual(picture.places.map(({ text }) => text),
    ['"a": 1 feature of unknown type, 1 feature of points, 1 feature of lines', '"a": 1 feature of polygons']);
});

test('layers can be left out, and a feature selected', () => {
  const layers = [layer(32, [POINTS]), layer(32, [TRIANGLE, LINE])];
  const picture = mapOfTile({ layers }, { layers: new Set([1]), selected: { layer: 1, feature: 1 } });
  const elements = elementsOf(picture, picture.tile);
  assert.deepEqual(names(elements.feature), [[1, 0], [1, 1], [1, 1]]);
  assert.deepEqual(elements.feature.map((it) => it['data-selected']), [undefined, undefined, 'true']);
  assert.equal(picture.words, 'The map has 2 features of 1 layer, of 2 that the tile has.');
});

test('layers of different extents lie on one square', () => {
  const picture = mapOfTile({ layers: [layer(32, [LINE]), layer(64, [LINE])] });
  assert.deepEqual(picture.tile, { left: -6.4, top: -6.4, right: 70.4, bottom: 70.4 });
  const [first, second] = elementsOf(picture, { left: 0, top: 0, right: 80, bottom: 60 }).feature.map((it) => positionsOf(it.d));
  assert.deepEqual(first, [[40, 40], [40, 200], [200, 200]]); // doubled, at 10 pixels for a unit
  assert.deepEqual(second, [[20, 20], [20, 100], [100, 100]]);
});

test('points are dots, lines are open, and polygons are closed', () => {
  const picture = mapOfTile({ layers: [layer(32, [POINTS, LINE, TRIANGLE])] });
  const [points, line, polygon] = elementsOf(picture, { left: 0, top: 0, right: 80, bottom: 60 }).feature.map((it) => String(it.d));
  assert.equal(points, 'M50 70h0M30 20h0');
  assert.equal(line, 'M20 20L20 100L100 100');
  assert.equal(polygon, 'M30 60L80 120L200 340Z');
});

test('the extent is drawn', () => {
  const picture = mapOfTile({ layers: [layer(32, [POINTS])] });
  const [extent] = elementsOf(picture, { left: -10, top: -10, right: 70, bottom: 50 }).extent;
  assert.deepEqual([extent.x, extent.y, extent.width, extent.height, extent['data-extent']], ['100', '100', '320', '320', 32]);
});

test('a tile without layers, and one without features, are empty maps', () => {
  assert.equal(mapOfTile({ layers: [] }).words, 'The map has 0 features of 0 layers.');
  const picture = mapOfTile({ layers: [layer(4096, [])] });
  assert.deepEqual(picture.box, picture.tile);
  assert.equal(elementsOf(picture).feature, undefined);
});

test('a layer of extent 0 is drawn too', () => {
  assert.equal(elementsOf(mapOfTile({ layers: [layer(0, [LINE])] })).feature.length, 1);
});

test('a feature by itself', () => {
  const picture = pictureOfFeature(TRIANGLE, 4096);
  assert.equal(picture.words, 'A feature of type POLYGON: 3 positions in 1 path.');
  const rounded = Object.entries(picture.box ?? {}).map(([side, value]) => [side, Math.round(value * 1e9) / 1e9]);
  assert.deepEqual(Object.fromEntries(rounded), { left: 0.2, top: 3.2, right: 22.8, bottom: 36.8 }); // a tenth of its height around it
  assert.equal(elementsOf(picture).path.length, 1);
  assert.deepEqual(pictureOfFeature({ ...TRIANGLE, geometry: [] }, 4096).box, picture.tile);
});

test('what can\'t be followed to its end is said', () => {
  assert.match(pictureOfFeature({ ...TRIANGLE, geometry: [9, 6, 12, 11, 4] }, 4096).words, /1 position in 1 path, as far as the first 3 of 5 numbers lead\./);
});

test('a very long name of a layer is cut, with its letters from right to left in an isolate', () => {
  const layer = { extent: 4096, features: [], keys: [], name: 'a\u05d0'.repeat(500000), values: [], version: 2 };
  const [{ text }] = mapOfTile({ layers: [layer] }).places;
  assert.ok(text.length < 100 && text.startsWith('\u2068"a\u05d0') && text.endsWith('…\u2069: no features'), text.slice(0, 200));
});
