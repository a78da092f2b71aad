// What a tile holds: numbers that a double doesn't hold, tags, and features that are found.
import assert from 'node:assert/strict';
import { test } from 'node:test';
import { readRecord } from '../../../bindings/js/src/tile/record.js';
import { featureLine, listedTags } from '../../site/app/contents/feature.js';
import { tagsOf } from '../../site/app/contents/record.js';
import { Finder } from '../../site/app/contents/search.js';

const LAYERS = [
  {
    extent: 4096, name: 'roads', version: 2, keys: ['class', 'name'], values: [{ string: 'Path' }, { string: 'Am Park' }, { int: 30 }],
    features: [
      { geometry: [9, 0, 0], id: 7, tags: [0, 0], type: 1 },
      { geometry: [9, 0, 0], id: null, tags: [0, 2, 1, 1], type: 1 },
    ],
  },
  { extent: 512, name: 'parks', version: 2, keys: ['name'], values: [], features: [{ geometry: [9, 0, 0], id: '18446744073709551615', tags: [], type: 1 }] },
];
const finder = new Finder({ layers: LAYERS });
const both = new Set([0, 1]);

test('numbers of 64 bits keep their digits', () => {
  const text = '{"layers":[{"extent":4096,"features":[{"geometry":[9,50,34],"id":18446744073709551615,"tags":[],"type":1}],'
    + '"keys":["1234567890123456789","\\"1234567890123456789"],"name":"a","values":[{"int":-9223372036854775808},{"sint":123456789012345},'
    + '{"string":"\\\\"},{"uint":9007199254740993}],"version":2}]}';
  const { layers: [layer] } = readRecord(text);
  assert.equal(layer.features[0].id, '18446744073709551615');
  assert.deepEqual(layer.features[0].geometry, [9, 50, 34]);
  assert.deepEqual(layer.keys, ['1234567890123456789', '"1234567890123456789']);
  assert.deepEqual(layer.values, [{ int: '-9223372036854775808' }, { sint: 123456789012345 }, { string: '\\' }, { uint: '9007199254740993' }]);
});

test('tags are pairs of a key and a value, also where the layer lacks one', () => {
  const textOf = (/** @type {any} */ value) => JSON.stringify(value);
  const tags = (/** @type {number[]} */ numbers) => tagsOf(LAYERS[0], { geometry: [], id: null, tags: numbers, type: 1 }, textOf);
  assert.deepEqual(tags([1, 1, 0, 2]), [{ key: 'name', value: '{"string":"Am Park"}' }, { key: 'class', value: '{"int":30}' }]);
  assert.deepEqual(tags([5, 9, 0]), [{ key: '(no key 5)', value: '(no value 9)' }, { key: 'class', value: '(no value)' }]);
});

test('features are found by layer, key, value and id', () => {
  const found = (/** @type {string} */ words) => finder.find(words, both, 10).first.map(({ layer, feature }) => `${layer}.${feature}`);
  assert.deepEqual(found(''), ['0.0', '0.1', '1.0']);
  assert.deepEqual(found('ROADS'), ['0.0', '0.1']);
  assert.deepEqual(found('park'), ['0.1', '1.0']);
  assert.deepEqual(found(' path '), ['0.0']);
  assert.deepEqual(found('class'), ['0.0', '0.1']);
  assert.deepEqual(found('int 30'), ['0.1']);
  assert.deepEqual(found('7'), ['0.0']);
  assert.deepEqual(found('18446744073709551615'), ['1.0']);
  assert.deepEqual(found('nowhere'), []);
});

test('it looks in the layers that are chosen, and counts what it does not list', () => {
  assert.deepEqual(finder.find('', new Set([1]), 10), { first: [{ layer: 1, feature: 0 }], count: 1 });
  assert.deepEqual(finder.find('', both, 1), { first: [{ layer: 0, feature: 0 }], count: 3 });
});

test('a feature in a line: its name, or else its first tag', () => {
  const line = (/** @type {number} */ layer, /** @type {number} */ feature) => featureLine({ layers: LAYERS }, { layer, feature });
  assert.deepEqual(line(0, 0), { title: 'roads, feature 0', more: 'POINT, id 7, class: "Path"' });
  assert.deepEqual(line(0, 1), { title: 'roads, feature 1', more: 'POINT, name: "Am Park"' });
  assert.deepEqual(line(1, 0), { title: 'parks, feature 0', more: 'POINT, id 18446744073709551615' });
});

test('thousands of tags with one value of a megabyte take no memory to speak of', () => {
  const count = 20000, long = 'x'.repeat(1 << 20);
  const feature = { geometry: [], id: null, tags: Array.from({ length: 2 * count }, (_, at) => (at % 2 ? 0 : at / 2)), type: 1 };
  const layer = { extent: 4096, name: long, version: 2, keys: Array.from({ length: count }, (_, at) => (at ? String(at) : long)), values: [{ string: long }], features: [feature] };
  const { title, more } = featureLine({ layers: [layer] }, { layer: 0, feature: 0 });
  assert.ok(title.length < 150 && more.length < 300, `${title.length} ${more.length}`);
  const { listed, count: all } = listedTags(layer, feature);
  assert.equal(all, count);
  assert.equal(listed.length, 200);
  assert.ok(listed.every(({ key, value }) => key.length <= 2000 && value.length <= 2002));
});
