import assert from 'node:assert/strict';
import { test } from 'node:test';
import { featureCounts, typeName, valueText } from '../../src/tile/layers.js';

test('values have their kind and what they say', () => {
  assert.equal(valueText({ string: 'a "b"\n' }), '"a \\"b\\"\\n"');
  assert.equal(valueText({ bool: false }), 'bool false');
  assert.equal(valueText({ int: -5 }), 'int -5');
  assert.equal(valueText({ uint: 18446744073709551615n }), 'uint 18446744073709551615');
  assert.equal(valueText(undefined), '');
});

// The bytes of IEEE 754 numbers, least significant first: sign, exponent and fraction by hand.
test('floats and doubles are those of their bytes', () => {
  assert.equal(valueText({ float: '0000803f' }), 'float 1'); // 0x3f800000
  assert.equal(valueText({ float: '000020c1' }), 'float -10'); // 0xc1200000: -1.25 * 2^3
  assert.equal(valueText({ float: 'cdcccc3d' }), 'float 0.1'); // 0x3dcccccd, the float nearest to 0.1
  assert.equal(valueText({ float: 'ffff7f7f' }), 'float 3.4028235e+38'); // the greatest
  assert.equal(valueText({ float: '15401c46' }), 'float 10000.0205'); // 0x461c4015: 10000 + 21/1024, of which eight digits are nearer to 10000 + 22/1024
  assert.equal(valueText({ float: '0000807f' }), 'float Infinity');
  assert.equal(valueText({ float: '0000c07f' }), 'float NaN');
  assert.equal(valueText({ float: '00000080' }), 'float -0');
  assert.equal(valueText({ double: '0000000000000080' }), 'double -0');
  assert.equal(valueText({ double: '000000000000f83f' }), 'double 1.5'); // 0x3ff8 and zeros
  assert.equal(valueText({ double: '182d4454fb210940' }), 'double 3.141592653589793'); // 0x400921fb54442d18
});

test('types have the names of the specification', () => {
  assert.deepEqual([0, 1, 2, 3].map(typeName), ['UNKNOWN', 'POINT', 'LINESTRING', 'POLYGON']);
});

test('features are counted by their types', () => {
  const layer = (/** @type {number[]} */ ...types) => ({ name: 'a', version: 2, extent: 4096, keys: [], values: [],
    features: types.map((type) => ({ id: null, tags: [], type, geometry: [] })) });
  assert.equal(featureCounts(layer(3, 1, 3)), '1 feature of points, 2 features of polygons');
  assert.equal(featureCounts(layer(0)), '1 feature of unknown type');
  assert.equal(featureCounts(layer()), 'no features');
});
