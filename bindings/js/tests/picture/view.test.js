import assert from 'node:assert/strict';
import { test } from 'node:test';
import { mapOfTile } from '../../src/picture/index.js';
import { boxBetween } from '../../src/picture/view/glide.js';
import { featureOfShape, placeAmong, selectableShapes } from '../../src/picture/view/selection.js';

const LARGE = { left: 0, top: 0, right: 100, bottom: 100 };
const SMALL = { left: 0, top: 50, right: 1, bottom: 51 };

test('a movement begins and ends at its boxes', () => {
  assert.deepEqual(boxBetween(LARGE, SMALL, 0), LARGE);
  assert.deepEqual(boxBetween(LARGE, SMALL, 1), SMALL);
});

test('sizes change by the same factor in the same time', () => {
  const middle = boxBetween(LARGE, SMALL, 0.5);
  assert.ok(Math.abs(middle.right - middle.left - 10) < 1e-9); // between 100 and 1
  assert.equal(middle.left, 0); // both begin there
});

test('boxes of one size are shifted', () => {
  const shifted = { left: 30, top: 0, right: 130, bottom: 100 };
  assert.deepEqual(boxBetween(LARGE, shifted, 0.5), { left: 15, top: 0, right: 115, bottom: 100 });
});

test('the features of a map can be selected in order', () => {
  const feature = { id: null, tags: [], type: 1, geometry: [9, 10, 14] };
  const layer = { name: 'a', version: 2, extent: 4096, keys: [], values: [], features: [feature, { ...feature, type: 0 }, feature] };
  const shapes = selectableShapes(mapOfTile({ layers: [layer, layer] }));
  assert.deepEqual(shapes.map(featureOfShape), [{ layer: 0, feature: 0 }, { layer: 0, feature: 2 }, { layer: 1, feature: 0 }, { layer: 1, feature: 2 }]);
  assert.equal(placeAmong(shapes, { layer: 1, feature: 0 }), 2);
  assert.equal(placeAmong(shapes, { layer: 1, feature: 1 }), -1);
  assert.equal(placeAmong(shapes, null), -1);
});
