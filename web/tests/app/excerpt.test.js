// One feature of a large tile.
import assert from 'node:assert/strict';
import { readFileSync } from 'node:fs';
import { test } from 'node:test';
import { excerptOf, recordAt } from '../../site/app/contents/excerpt.js';

/** @param {number} number @param {number[]} payload */
const field = (number, payload) => [number * 8 + 2, payload.length, ...payload];
const VERSION = [15 * 8, 2], NAME = field(1, [0x61]), KEY = field(3, [0x6b]);
const FIRST = field(2, [0x18, 1, 0x22, 3, 9, 2, 2]), SECOND = field(2, [0x18, 1, 0x22, 3, 9, 4, 4]);

/** @param {Blob|null} excerpt */
const bytesOf = async (excerpt) => excerpt && [...new Uint8Array(await excerpt.arrayBuffer())];

test('the other features and layers are left out, and all else of the layer stays', async () => {
  const tile = Uint8Array.from([...field(3, [...VERSION, ...NAME]), ...field(3, [...NAME, ...FIRST, ...KEY, ...SECOND, ...VERSION])]);
  assert.deepEqual(await bytesOf(excerptOf(tile, { layer: 1, feature: 0 })), field(3, [...NAME, ...FIRST, ...KEY, ...VERSION]));
  assert.deepEqual(await bytesOf(excerptOf(tile, { layer: 1, feature: 1 })), field(3, [...NAME, ...KEY, ...SECOND, ...VERSION]));
  assert.equal(excerptOf(tile, { layer: 0, feature: 0 }), null);
  assert.equal(excerptOf(tile, { layer: 1, feature: 2 }), null);
  assert.equal(excerptOf(tile, { layer: 2, feature: 0 }), null);
});

test('of a tile with one feature it is the tile', async () => {
  for (const name of ['crossing_edges', 'double_comb_with_crossing', 'point']) {
    const tile = readFileSync(new URL(`../../../tiles/${name}.mvt`, import.meta.url));
    assert.deepEqual(await bytesOf(excerptOf(new Uint8Array(tile), { layer: 0, feature: 0 })), [...tile]);
  }
});

test('the record has the feature at its place', () => {
  const feature = { geometry: [9, 0, 0], id: 5, tags: [], type: 1 };
  const layer = { extent: 512, features: [feature], keys: ['k'], name: 'a', values: [], version: 2 };
  const { layers } = recordAt({ layers: [layer] }, { layer: 3, feature: 7 });
  assert.equal(layers.length, 4);
  assert.equal(layers[3].features[7], feature);
  assert.deepEqual([layers[3].extent, layers[3].keys, layers[3].name], [512, ['k'], 'a']);
});
