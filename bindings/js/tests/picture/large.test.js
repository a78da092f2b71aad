import assert from 'node:assert/strict';
import { test } from 'node:test';
import { mapOfTile, pictureOfFault, pictureOfFeature, toText } from '../../src/picture/index.js';
import { elementsOf } from './tools.js';

const VERTICES = 300000;
const MOST_MILLISECONDS = 10_000;

/**
 * @template T
 * @param {() => T} work
 * @returns {T}
 */
function quickly(work) {
  const before = process.cpuUsage();
  const result = work();
  const { user, system } = process.cpuUsage(before);
  assert.ok((user + system) / 1000 < MOST_MILLISECONDS, `${(user + system) / 1000} ms`);
  return result;
}

/** The numbers of a ring like a comb, with this many vertices. */
function comb() {
  const numbers = [9, 0, 0, 8 * (VERTICES - 1) + 2];
  for (let k = 1; k < VERTICES - 1; k++) numbers.push(2, k % 2 ? 20 : 19);
  numbers.push(0, 2000, 15); // (its last vertex far below)
  return numbers;
}

/** The numbers of many triangles side by side. */
function triangles() {
  const numbers = [];
  for (let k = 0; k < VERTICES / 3; k++) numbers.push(9, 4, 3, 18, 4, 0, 1, 4, 15);
  return numbers;
}

/**
 * @param {number[]} geometry
 * @param {number[]} [tags]
 */
function recordWith(geometry, tags = []) {
  return { layers: [{ name: 'a', version: 2, extent: 4096, keys: ['k'], values: [{ bool: true }], features: [{ id: null, type: 3, geometry, tags }] }] };
}

const NOTHING = new Uint8Array();

test('of a ring of 300,000 vertices only what is near the fault is drawn', () => {
  const record = recordWith(comb());
  const at = { code: 504, layer: 0, feature: 0, polygon: 0, first: { ring: 0, edge: 150000 }, second: { ring: 0, edge: 150002 }, x: '150001', y: '5', w: '1' };
  const picture = quickly(() => {
    const it = pictureOfFault(at, NOTHING, record);
    assert.ok(it?.close);
    assert.ok(toText(it).length < 200000 && toText(it, it.close).length < 200000);
    return it;
  });
  assert.match(picture.words, /large, and only what is near this point is drawn/);
  const elements = elementsOf(picture);
  assert.deepEqual(elements['first-edge'].map((it) => it['data-from']), ['150000 0']);
  assert.deepEqual(elements.ring.map((it) => it['data-ring']), [0]);
});

test('a vertex of 100,000 rings', () => {
  const record = recordWith(triangles());
  const at = { code: 507, layer: 0, feature: 0, polygon: 50000, vertex: 1, other: 50001 };
  quickly(() => {
    const picture = pictureOfFault(at, NOTHING, record);
    assert.ok(picture && toText(picture).length < 400000);
  });
});

test('a ring without area among 100,000', () => {
  const record = recordWith(triangles());
  quickly(() => {
    const picture = pictureOfFault({ code: 502, layer: 0, feature: 0, ring: 99999 }, NOTHING, record);
    assert.ok(picture && toText(picture).length < 400000);
  });
});

test('a fault of commands after 300,000 vertices', () => {
  const numbers = comb().slice(0, -1);
  quickly(() => {
    const picture = pictureOfFault({ code: 403, layer: 0, feature: 0, index: numbers.length }, NOTHING, recordWith(numbers));
    assert.ok(picture && toText(picture).length < 200000);
  });
});

test('a fault after 600,000 tags', () => {
  const tags = new Array(2 * VERTICES).fill(0);
  quickly(() => {
    const picture = pictureOfFault({ code: 304, layer: 0, feature: 0, index: 2 * VERTICES - 2 }, NOTHING, recordWith([9, 0, 0], tags));
    assert.ok(picture);
    assert.deepEqual(elementsOf(picture).number.slice(0, 3).map((it) => it['data-index']), [0, 1, 2 * VERTICES - 8]);
  });
});

test('a wire fault after a million fields', () => {
  const tile = new Uint8Array(2000001);
  for (let at = 0; at + 1 < tile.length; at += 2) tile.set([0x08, 0x05], at);
  quickly(() => {
    const picture = pictureOfFault({ code: 103, scope: 'tile', at: 2000000, field: 0 }, tile, null);
    assert.ok(picture && toText(picture).length < 200000);
    assert.deepEqual(picture.places.slice(-25).map(({ name }) => name), ['before these', ...Array.from({ length: 24 }, (_, k) => `byte ${1999952 + 2 * k}`)]);
    assert.deepEqual(elementsOf(picture)['fault-byte'], [{ 'data-role': 'fault-byte', 'data-offset': 2000000 }]);
  });
});

test('a map and a feature of 300,000 vertices', () => {
  const record = recordWith(comb());
  quickly(() => assert.ok(toText(mapOfTile(record)).length < 1000000));
  quickly(() => assert.ok(toText(pictureOfFeature(record.layers[0].features[0], 4096)).length < 1000000));
});

test('a map of 50,000 features has elements for 20,000 of them, and one for the others', () => {
  const features = Array.from({ length: 50000 }, (_, k) => ({ id: null, type: 1, tags: [], geometry: [9, 2 * (k % 4096), 2 * Math.floor(k / 8)] }));
  const record = { layers: [{ ...recordWith([]).layers[0], features }] };
  const picture = quickly(() => mapOfTile(record));
  const { feature, features: [others, ...more] } = quickly(() => elementsOf(picture));
  assert.equal(feature.length, 20000);
  assert.equal(String(others.d).split('M').length - 1, 30000);
  assert.equal(more.length, 0);
  assert.equal(picture.words, 'The map has 50000 features of 1 layer. The first 20000 can be chosen.');
});

test('layers are many', () => {
  const [layer] = recordWith([]).layers, layers = new Array(500000).fill(layer);
  quickly(() => assert.match(mapOfTile({ layers }).words, /of 500000 layers/));
  quickly(() => {
    const picture = pictureOfFault({ code: 202, first: 7, second: 499999 }, NOTHING, { layers });
    assert.deepEqual(picture?.places.map(({ name }) => name), ['layer 3', 'layer 4', 'layer 5', 'layer 6', 'layer 7', 'layer 8', 'layer 9', 'layer 10',
      'layer 11', 'layer 499995', 'layer 499996', 'layer 499997', 'layer 499998', 'layer 499999']);
  });
});
