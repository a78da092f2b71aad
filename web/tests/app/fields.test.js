// The parts of a tile's bytes, and what is said of them.
import assert from 'node:assert/strict';
import { test } from 'node:test';
import { SAMPLES, sample } from '../../../bindings/js/tests/samples.js';
import { feature, field, tileOf, varint } from '../../../bindings/js/tests/wire.js';
import { hasParts, partsOf, pathTo, wholeOf } from '../../site/app/fields/parts.js';
import { contentText, nameOf, pathText, roleText } from '../../site/app/fields/words.js';

/** @typedef {import('../../site/app/fields/parts.js').Part} Part */

// a layer with two features, a key, values of each kind, and a field that no layer has
const FLOAT = [0x15, 0, 0, 0xc0, 0x3f], DOUBLE = [0x19, 0, 0, 0, 0, 0, 0, 0xf8, 0xbf];
const VALUES = [field(1, [0x78]), FLOAT, DOUBLE, [0x20, ...Array(9).fill(0xff), 1], [0x28, 7], [0x30, 7], [0x38, 1], []];
const TILE = Uint8Array.from(field(3, [
  0x78, 2, ...field(1, [0x61]), ...field(2, [8, 9, ...field(2, [0, 1]), 0x18, 2, ...field(4, [9, 2, 4, ...varint(10), 0x85, 2, 3])]), ...feature(3, []),
  ...field(3, [0x6b]), ...VALUES.flatMap((value) => field(4, value)), 0x28, ...varint(4096), ...field(9, [1, 2, 3]),
]));

/**
 * @param {Uint8Array} bytes
 * @param {Part} part
 */
function all(bytes, part) {
  return partsOf(bytes, part, 0, Infinity).parts;
}

/**
 * @param {Part} part
 * @returns {string[]} names and contents, those of parts with a step to the right
 */
function lines(part) {
  return all(TILE, part).flatMap((it) => [`${nameOf(it)}: ${contentText(TILE, it)}`, ...(it.message ? lines(it).map((line) => `  ${line}`) : [])]);
}

test('names and contents of fields', () => {
  assert.deepEqual(lines(wholeOf(TILE)).filter((line) => !line.startsWith('    string') && !/^ {4}(float|double|u?int|sint|bool):/.test(line)), [
    'layer 0: "a", 91 bytes', '  version: 2', '  name: "a"',
    '  feature 0: 17 bytes', '    id: 9', '    tags: 2 bytes', '    type: 2 (LINESTRING)', '    geometry: 7 bytes',
    '  feature 1: 4 bytes', '    type: 3 (POLYGON)', '    geometry: 0 bytes',
    '  key 0: "k"', '  value 0: string "x"', '  value 1: float 1.5', '  value 2: double -1.5', '  value 3: int -1', '  value 4: uint 7',
    '  value 5: sint -4', '  value 6: bool true', '  value 7: no bytes', '  extent: 4096', '  field 9: length and bytes, 3 bytes',
  ]);
});

/**
 * @param {Uint8Array} bytes
 * @param {Part} list
 * @param {number} first
 * @param {number} most
 */
function texts(bytes, list, first, most) {
  return partsOf(bytes, list, first, most).parts.map((part) => contentText(bytes, part));
}

test('numbers of lists', () => {
  const [layer] = all(TILE, wholeOf(TILE)), [, , first] = all(TILE, layer), [, tags, , geometry] = all(TILE, first);
  assert.deepEqual(texts(TILE, tags, 0, 9), ['0: key 0', '1: value 1']);
  assert.deepEqual(texts(TILE, tags, 1, 9), ['1: value 1']);
  assert.deepEqual(texts(TILE, geometry, 0, 99), ['9: MoveTo × 1', '2: dX 1', '4: dY 2', '10: LineTo × 1', '261: dX -131', '3: dY -2']);
  assert.deepEqual(texts(TILE, geometry, 4, 1), ['261: dX -131']);
  assert.deepEqual(all(TILE, geometry).map(nameOf), ['number 0', 'number 1', 'number 2', 'number 3', 'number 4', 'number 5']);
});

/**
 * @param {Uint8Array} tile of one layer
 * @returns {string[]} names and contents in its first feature, those of numbers to the right
 */
function linesOfFeature(tile) {
  const layer = all(tile, wholeOf(tile)).find(({ message }) => message === 'layer'), feature = layer && all(tile, layer).find(({ message }) => message === 'feature');
  assert.ok(feature);
  return all(tile, feature).flatMap((it) => [`${nameOf(it)}: ${contentText(tile, it)}`,
    ...(it.isList ? all(tile, it).map((number) => `  ${nameOf(number)}: ${contentText(tile, number)}`) : [])]);
}

// (the numbers of a list are those of its fields in order, packed or single: Protocol Buffers encoding)
for (const [name, lines] of /** @type {[string, string[]][]} */ ([
  ['no_step_in_three_fields', [
    'type: 3 (POLYGON)', 'geometry: 3 bytes', '  number 0: 9: MoveTo × 1', '  number 1: 0: dX 0', '  number 2: 0: dY 0',
    'geometry, number 3: 18: LineTo × 2',
    'geometry: 5 bytes', '  number 4: 0: dX 0', '  number 5: 0: dY 0', '  number 6: 10: dX 5', '  number 7: 10: dY 5', '  number 8: 15: ClosePath × 1',
  ]],
  ['single_numbers', ['type: 1 (POINT)', 'geometry, number 0: 9: MoveTo × 1', 'geometry, number 1: 50: dX 25', 'geometry, number 2: 34: dY 17']],
  ['key_twice_in_two_fields', [
    'tags: 2 bytes', '  number 0: 0: key 0', '  number 1: 0: value 0', 'tags, number 2: 0: key 0', 'tags, number 3: 1: value 1',
    'type: 1 (POINT)', 'geometry: 3 bytes', '  number 0: 9: MoveTo × 1', '  number 1: 50: dX 25', '  number 2: 34: dY 17',
  ]],
  ['tags_in_three_fields', [
    'tags: 1 byte', '  number 0: 0: key 0', 'tags, number 1: 0: value 0', 'tags: 2 bytes', '  number 2: 1: key 1', '  number 3: 1: value 1',
    'type: 1 (POINT)', 'geometry: 3 bytes', '  number 0: 9: MoveTo × 1', '  number 1: 50: dX 25', '  number 2: 34: dY 17',
  ]],
])) {
  test(`${name}: numbers of a list go on through its fields`, () => assert.deepEqual(linesOfFeature(sample(name)), lines));
}

test('a path names a single number as one of a packed list', () => {
  const tile = sample('no_step_in_three_fields');
  assert.equal(pathText(pathTo(tile, tile.indexOf(0x12, 16) - 1)), 'layer 0, feature 0, geometry, number 3');
  assert.equal(pathText(pathTo(tile, tile.length - 1)), 'layer 0, feature 0, geometry, number 8');
});

test('numbers of more than 32 bits', () => {
  const GREATEST = [...Array(9).fill(0xff), 1], WIDE = [0x80, 0x80, 0x80, 0x80, 0x10]; // 2^64 - 1 and 2^32
  const tile = new Uint8Array(field(3, field(2, [...field(4, [9, ...GREATEST, 4, 10, ...GREATEST.slice(0, 4), 0x0f, 0, ...WIDE, 2]), ...field(2, [...WIDE, 1])])));
  assert.deepEqual(linesOfFeature(tile), [
    'geometry: 25 bytes', '  number 0: 9: MoveTo × 1', '  number 1: 18446744073709551615: above 4294967295', '  number 2: 4: dY 2',
    '  number 3: 10: LineTo × 1', '  number 4: 4294967295: dX -2147483648', '  number 5: 0: dY 0',
    '  number 6: 4294967296: above 4294967295', '  number 7: 2',
    'tags: 6 bytes', '  number 0: 4294967296: above 4294967295', '  number 1: 1: value 1',
  ]);
});

test('ten bytes whose last one is above 1 are no number', () => {
  const tile = new Uint8Array(field(3, field(2, field(4, [9, ...Array(9).fill(0x80), 2, 3]))));
  assert.deepEqual(linesOfFeature(tile), ['geometry: 12 bytes', '  number 0: 9: MoveTo × 1', "  bytes 7 to 17: can't be read"]);
});

test('fields of another wire type have no ordinal, and take none', () => {
  const tile = Uint8Array.from([0x18, 5, ...field(3, [0x10, 7, ...field(2, [0x15, 1, 2, 3, 4, 0x18, 1]), 0x20, 1, ...field(4, [0x38, 1])])]);
  const [stray, layer] = all(tile, wholeOf(tile));
  assert.deepEqual([nameOf(stray), contentText(tile, stray)], ['layers', 'varint, 1 byte']);
  assert.deepEqual([nameOf(layer), ...all(tile, layer).map(nameOf)], ['layer 0', 'features', 'feature 0', 'values', 'value 0']);
  assert.deepEqual(linesOfFeature(tile), ['tags: four bytes, 4 bytes', 'type: 1 (POINT)']);
});

test('floats have their sign, and as few digits as tell them from others', () => {
  // (IEEE 754, least significant byte first: 0x3dcccccd is the float nearest to 0.1)
  const tile = new Uint8Array(field(3, [[0x15, 0xcd, 0xcc, 0xcc, 0x3d], [0x15, 0, 0, 0, 0x80], [0x19, 0, 0, 0, 0, 0, 0, 0, 0x80]].flatMap((value) => field(4, value))));
  const [layer] = all(tile, wholeOf(tile));
  assert.deepEqual(texts(tile, layer, 0, 9), ['float 0.1', 'float -0', 'double -0']);
});

test('a window of many parts', () => {
  const many = tileOf(Array.from({ length: 500 }, () => feature(1, [9, 2, 2]))), [layer] = all(many, wholeOf(many));
  const { parts, count } = partsOf(many, layer, 200, 3);
  assert.equal(count, 502);
  assert.deepEqual(parts.map(({ index, ordinal, is }) => [index, ordinal, is]), [[200, 198, 'field'], [201, 199, 'field'], [202, 200, 'field']]);
});

test('what is told of a byte', () => {
  const path = pathTo(TILE, TILE.indexOf(0x85));
  assert.equal(pathText(path), 'layer 0, feature 0, geometry, number 4');
  assert.equal(pathText(pathTo(TILE, 0)), 'layer 0');
  const [layer] = all(TILE, wholeOf(TILE));
  assert.deepEqual([0, 1, 2].map((place) => roleText(layer, place)), ['the key of the field', 'the length of the field', 'content']);
});

test('the parts of each sample follow each other without a gap, and each byte leads to its innermost part', () => {
  /**
   * @param {Uint8Array} bytes
   * @param {Part} part
   * @returns {number} how many parts it has in all
   */
  const covered = (bytes, part) => {
    const parts = all(bytes, part);
    assert.deepEqual([part.payload, ...parts.map(({ end }) => end)], [...parts.map(({ at }) => at), part.end]);
    return parts.reduce((sum, it) => sum + (hasParts(it) ? covered(bytes, it) : 1), 1);
  };
  for (const { name, tile } of SAMPLES.filter((it) => it.tile.length > 0 && it.tile.length < 5000)) {
    assert.ok(covered(tile, wholeOf(tile)) > 1, name);
    for (let place = 0; place < tile.length; place += 1 + Math.floor(tile.length / 50)) {
      const path = pathTo(tile, place), last = path[path.length - 1];
      assert.ok(last.at <= place && place < last.end && (place < last.payload || !hasParts(last)), `${name} ${place}`);
      assert.ok(path.slice(1).every((part, at) => part.at >= path[at].payload && part.end <= path[at].end), name);
    }
  }
});
