import assert from 'node:assert/strict';
import { test } from 'node:test';
import { pictureOfFault } from '../../src/picture/index.js';
import { elementsOf, recordOf } from './tools.js';
import { SAMPLES, YES, sample } from '../samples.js';
import { field, tileOf } from '../wire.js';

/** @typedef {Record<string, any>} Fault */
/** @typedef {Record<string, string|number>} Attributes */

/** The sample tiles with their faults, by both profiles, and each that is accepted. */
const CASES = SAMPLES.flatMap(({ name, tile, lines }) => [...new Set([...lines.polygon, ...lines.feature])].filter((line) => line !== YES)
  .map((line) => ({ name, tile, line, fault: /** @type {Fault} */ (JSON.parse(line)) })));

/** @param {{tile: Uint8Array, fault: Fault}} of */
function pictureOf({ tile, fault }) {
  return pictureOfFault(fault, tile, fault.code < 200 ? null : recordOf(tile));
}

/**
 * The elements that a picture has to have just once, or for 202 twice, by their roles.
 * @param {Fault} fault
 * @returns {Record<string, Attributes[]>}
 */
function namedBy(fault) {
  if (fault.code < 200) return { 'fault-byte': [{ 'data-offset': fault.at }] };
  if (fault.code < 300) return { 'fault-layer': ('first' in fault ? [fault.first, fault.second] : [fault.layer]).map((it) => ({ 'data-layer': it })) };
  if (fault.code < 400) return { 'fault-number': [{ 'data-index': fault.index }] };
  if (fault.code < 500) return { 'fault-number': [{ 'data-index': fault.index }], 'last-position': [{}] };
  if (fault.code < 504) return { ring: [{ 'data-ring': fault.ring }], vertex: [{ 'data-ring': fault.ring, 'data-vertex': 0 }], 'last-position': [{ 'data-ring': fault.ring }] };
  if (fault.code === 504) {
    const edge = (/** @type {Fault} */ it) => [{ 'data-ring': it.ring, 'data-edge': it.edge }];
    return { 'first-edge': edge(fault.first), 'second-edge': edge(fault.second), point: [{}] };
  }
  const vertex = [{ 'data-vertex': fault.vertex }];
  if (fault.code === 507) return { vertex };
  const hole = [{ 'data-ring': fault.ring }];
  return fault.code === 505 ? { vertex, hole } : { vertex, hole, 'other-hole': [{ 'data-ring': fault.other }] };
}

/**
 * @param {Attributes[]} actual
 * @param {Attributes[]} expected attributes that each has
 * @param {string} text
 */
function assertAre(actual, expected, text) {
  assert.equal(actual.length, expected.length, text);
  expected.forEach((attributes, k) => assert.deepEqual({ ...actual[k], ...attributes }, actual[k], text));
}

for (const { name, tile, line, fault } of CASES) {
  test(`${name}: the picture of ${line} has what the fault names`, () => {
    const picture = pictureOf({ tile, fault });
    assert.ok(picture);
    const elements = elementsOf(picture);
    for (const [role, expected] of Object.entries(namedBy(fault))) assertAre(elements[role] ?? [], expected, role);
    for (const { text } of picture.places) assert.doesNotMatch(text, /undefined|NaN|null/);
    assert.doesNotMatch(picture.words, /undefined|NaN|null/);
    if (!picture.close) return;
    const close = elementsOf(picture, picture.close);
    for (const role of ['first-edge', 'second-edge', 'point', 'vertex']) assert.equal((close[role] ?? []).length, (elements[role] ?? []).length, role);
  });
}

/**
 * The fault of a sample tile by a profile, the first that is accepted, or the one with this text in its line.
 * @param {string} name
 * @param {{profile?: 'polygon'|'feature', has?: string}} [which]
 */
function shown(name, { profile = 'polygon', has = '' } = {}) {
  const it = SAMPLES.find((one) => one.name === name);
  const line = it?.lines[profile].find((one) => one.includes(has));
  assert.ok(it && line);
  const picture = pictureOf({ tile: it.tile, fault: JSON.parse(line) });
  assert.ok(picture);
  return { picture, elements: elementsOf(picture), text: (/** @type {string} */ of) => picture.places.find((one) => one.name === of)?.text };
}

// What follows was reckoned by hand from the bytes in tiles/README.md.

for (const [name, has, first, second, point] of [
  ['crossing_edges', '', '0 8,10 0', '10 10,0 0', '40/9,40/9'],
  ['second_polygon', '', '40 8,50 0', '50 10,40 0', '400/9,40/9'],
  ['crossing_behind_hole', '', '0 80,100 0', '100 100,20 10', '3700/77,3200/77'],
  ['spike', '"second":{"edge":2', '10 0,10 10', '10 10,10 5', '10,5'],
  ['hole_through_exterior', '"first":{"edge":1,"ring":0},"layer":0,"polygon":0,"second":{"edge":1', '10 0,10 10', '5 7,20 6', '10,20/3'],
  ['hole_touches_exterior', '"second":{"edge":0', '0 10,0 0', '0 5,3 7', '0,5'],
  ['crossing_across_plane', '', '-1073741824 1073741822,1073741823 -1073741824', '1073741823 1073741823,-1073741824 -1073741824',
    '-3221225470/4294967293,-3221225470/4294967293'], // (both were 2147483647 times as great)
]) {
  test(`${name}: the two edges and the point`, () => {
    const { elements } = shown(name, { has });
    assert.equal(`${elements['first-edge'][0]['data-from']},${elements['first-edge'][0]['data-to']}`, first);
    assert.equal(`${elements['second-edge'][0]['data-from']},${elements['second-edge'][0]['data-to']}`, second);
    assert.equal(`${elements.point[0]['data-x']},${elements.point[0]['data-y']}`, point);
  });
}

for (const [name, profile, has, says] of /** @type {[string, 'polygon'|'feature', string, string][]} */ ([
  ['crossing_edges', 'polygon', '', '(40/9, 40/9) in common. They cross there.'],
  ['crossing_across_plane', 'polygon', '', 'in common. They cross there.'],
  ['hole_touches_exterior', 'polygon', '"second":{"edge":0', '(0, 5) in common. The second one has an end there, on the first one.'],
  ['spike', 'polygon', '"second":{"edge":2', '(10, 5) in common. Both lie on one line.'],
  ['spike', 'polygon', '"second":{"edge":3', '(10, 5) in common. The second one has an end there, on the first one.'],
  ['position_twice', 'polygon', '"first":{"edge":1,"ring":0},"layer":0,"polygon":0,"second":{"edge":4', '(5, 5) in common. Both have an end there.'],
  ['polygons_that_cross', 'feature', '"first":{"edge":0,"ring":0},"layer":0,"polygon":1,"second":{"edge":1',
    '(20, 10) in common, of polygons 0 and 1. They cross there.'],
])) {
  test(`${name}: how edges meet: ${says}`, () => assert.ok(shown(name, { profile, has }).picture.words.endsWith(says)));
}

test('the table has the point as a fraction and as a decimal, and the edges', () => {
  const { picture, text } = shown('crossing_edges');
  assert.equal(text('point'), 'x = 40/9 = 4.444444…, y = 40/9 = 4.444444…');
  assert.equal(text('first edge'), 'ring 0, edge 0: (0, 8) to (10, 0)');
  assert.equal(text('second edge'), 'ring 0, edge 2: (10, 10) to (0, 0)');
  assert.equal(text('ring 0'), 'exterior of 4 vertices, doubled area 20');
  assert.match(picture.words, /Edge 0 of ring 0 and edge 2 of ring 0 .*\(40\/9, 40\/9\)/);
  assert.equal(shown('crossing_behind_hole').text('point'), 'x = 3700/77 = 48.051948…, y = 3200/77 = 41.558441…');
});

/** The numbers of a square with 300 small squares as holes in rows of 30; the one of ring 269 is moved onto that of ring 268. */
function manyHoles() {
  const numbers = [9, 0, 0, 26, 2000, 0, 0, 2000, 1999, 0, 15]; // (it ends at (0, 1000))
  let [x, y] = [0, 1000];
  const zigzag = (/** @type {number} */ step) => (step < 0 ? -2 * step - 1 : 2 * step);
  for (let hole = 0; hole < 300; hole += 1) {
    const [left, top] = hole === 268 ? [282, 92] : [10 * (hole % 30) + 10, 10 * Math.floor(hole / 30) + 10];
    numbers.push(9, zigzag(left - x), zigzag(top - y), 26, 0, 8, 8, 0, 0, 7, 15);
    [x, y] = [left + 4, top];
  }
  return numbers;
}

test('of many rings the table has those at fault, and some of the others', () => {
  const feature = { id: null, type: 3, tags: [], geometry: manyHoles() };
  const record = { layers: [{ name: 'a', version: 2, extent: 4096, keys: [], values: [], features: [feature] }] };
  const fault = { code: 504, layer: 0, feature: 0, polygon: 0, first: { ring: 268, edge: 1 }, second: { ring: 269, edge: 0 }, x: '282', y: '94', w: '1' };
  const picture = pictureOfFault(fault, new Uint8Array(), record);
  const rings = picture?.places.filter(({ name }) => /ring/.test(name)) ?? [];
  assert.deepEqual(rings.slice(0, 4), [
    { name: 'ring 268', text: 'hole of 4 vertices, doubled area -32' },
    { name: 'ring 269', text: 'hole of 4 vertices, doubled area -32' },
    { name: 'ring 0', text: 'exterior of 4 vertices, doubled area 2000000' },
    { name: 'ring 1', text: 'hole of 4 vertices, doubled area -32' },
  ]);
  assert.deepEqual(rings.slice(-1), [{ name: 'more rings', text: '261' }]); // (40 of 301 are listed)
});

test('of a feature with several polygons the others are faint', () => {
  const { picture } = shown('second_polygon'), elements = elementsOf(picture, picture.tile);
  assert.deepEqual(elements.ring.map((it) => it['data-ring']), [2]);
  assert.deepEqual(elements['other-ring'].map((it) => it['data-ring']), [0, 1]);
});

test('edges of two polygons show both', () => {
  const { elements } = shown('polygons_that_cross', { profile: 'feature', has: '"first":{"edge":0,"ring":0},"layer":0,"polygon":1,"second":{"edge":1' });
  assert.deepEqual(elements.ring.map((it) => [it['data-polygon'], it['data-ring']]), [[1, 1]]);
  assert.deepEqual(elements['other-polygon'].map((it) => [it['data-polygon'], it['data-ring']]), [[0, 0]]);
  assert.deepEqual([elements.point[0]['data-x'], elements.point[0]['data-y']], ['20', '10']);
});

for (const [name, profile, x, y, ring] of /** @type {[string, 'polygon'|'feature', number, number, number][]} */ ([
  ['hole_outside', 'polygon', 20, 0, 1], ['hole_in_hole', 'polygon', 20, 20, 2],
  ['polygons_that_overlap', 'feature', 10, 10, 0], ['polygon_on_polygon', 'feature', 20, 20, 1], ['polygons_side_by_side', 'feature', 10, 0, 0],
])) {
  test(`${name}: the vertex`, () => {
    const [vertex] = shown(name, { profile }).elements.vertex;
    assert.deepEqual([vertex['data-x'], vertex['data-y'], vertex['data-ring']], [x, y, ring]);
  });
}

test('the table says which rings are named', () => {
  const hole = shown('hole_in_hole');
  assert.equal(hole.text('hole, ring 2'), 'hole of 4 vertices, doubled area -200');
  assert.equal(hole.text('other hole, ring 1'), 'hole of 4 vertices, doubled area -12800'); // (80 * 80, twice)
  assert.equal(hole.text('exterior, ring 0'), 'exterior of 4 vertices, doubled area 20000; with rings 1 and 2');
  const polygon = shown('polygon_on_polygon', { profile: 'feature' });
  assert.equal(polygon.text('polygon 0'), 'ring 0: exterior of 4 vertices, doubled area 20000');
  assert.equal(polygon.text('polygon 1'), 'ring 1: exterior of 4 vertices, doubled area 200');
});

test('a vertex in another polygon shows that polygon', () => {
  const { elements } = shown('polygon_in_last_one', { profile: 'feature' });
  assert.deepEqual(elements['other-polygon'].map((it) => [it['data-polygon'], it['data-ring']]), [[2, 2]]);
  assert.deepEqual(elements.ring.map((it) => [it['data-polygon'], it['data-ring']]), [[0, 0]]);
  assert.deepEqual(elements['other-ring'].map((it) => it['data-ring']), [1]);
});

test('a ring has its first and its last position', () => {
  const ends = (/** @type {string} */ name) => {
    const { vertex: [first], 'last-position': [last] } = shown(name).elements;
    return [first['data-x'], first['data-y'], last['data-vertex'], last['data-x'], last['data-y']];
  };
  assert.deepEqual(ends('closed_by_hand'), [0, 0, 3, 0, 0]);
  assert.deepEqual(ends('ring_without_area'), [0, 0, 2, 10, 10]);
  assert.deepEqual(ends('ring_there_and_back'), [0, 0, 2, 5, 0]);
  assert.deepEqual(ends('begins_with_hole'), [20, 0, 3, 30, 0]);
  assert.match(shown('begins_with_hole').picture.words, /doubled area is -200/);
});

test('a geometry is followed to the last position before the fault', () => {
  const last = (/** @type {string} */ name) => {
    const { elements: { 'last-position': [it], path = [] } } = shown(name);
    return [it['data-x'], it['data-y'], path.length];
  };
  assert.deepEqual(last('open_ring'), [20, 34, 1]);
  assert.deepEqual(last('closed_line'), [10, 10, 1]);
  assert.deepEqual(last('no_step'), [0, 0, 1]);
  assert.deepEqual(last('second_move_to'), [25, 17, 1]);
  assert.deepEqual(last('step_across_plane'), [2 ** 30, 0, 1]);
  assert.deepEqual(last('half_a_point'), [0, 0, 0]);
});

test('what follows a step of no length is drawn too', () => {
  const { picture } = shown('no_step');
  const [rest] = elementsOf(picture, { left: 0, top: 0, right: 80, bottom: 60 }).rest; // 10 pixels for a unit
  assert.equal(rest.d, 'M0 0L50 50Z');
  assert.equal(shown('open_ring').elements.rest, undefined);
});

test('the last position has the places of its numbers', () => {
  assert.equal(shown('open_ring').text('last position'), '(20, 34), by numbers 6 and 7');
  assert.equal(shown('half_a_point').text('last position'), 'none');
});

test('the words say what is due, and what is there', () => {
  const words = (/** @type {string} */ name) => shown(name).picture.words;
  assert.match(words('open_ring'), /ends after 8 numbers, where a ClosePath is due/);
  assert.match(words('half_a_point'), /ends after 2 numbers, where the y of a step is due/);
  assert.match(words('no_such_command'), /At number 0 .* a MoveTo is due, and it is no command \(id 3\)/);
  assert.match(words('second_move_to'), /At number 3 .* nothing more is due, and it is MoveTo × 1/);
  assert.match(words('ring_of_two'), /Number 3 .* is LineTo × 1, and the count has to be at least 2/);
  assert.match(words('closed_twice'), /Number 8 .* is ClosePath × 2, and the count has to be 1/);
});

test('a step that leads out of range is shown', () => {
  assert.equal(shown('above_greatest_coordinate').elements.step[0]['data-to'], '1073741825 0');
  assert.equal(shown('above_greatest_coordinate').text('would lead to'), 'x = 1073741825');
  assert.equal(shown('below_least_coordinate').text('would lead to'), 'x = -1073741825');
  assert.equal(shown('step_across_plane').elements.step[0]['data-to'], '-1073741824 0');
  const record = recordOf(sample('point'));
  record.layers[0].features[0].geometry = [9, 4, 2147483650]; // the step (2, 2^30 + 1)
  const picture = pictureOfFault({ code: 405, layer: 0, feature: 0, index: 2 }, sample('point'), record);
  assert.ok(picture);
  assert.equal(elementsOf(picture).step[0]['data-to'], '2 1073741825');
});

test('tags have the texts of their keys and values', () => {
  const { picture, elements } = shown('key_twice');
  assert.deepEqual(picture.places.map(({ text }) => text), ['0: key "k"', '0: bool true', '0: key "k"', '1: uint 5', '0 of layer 0 ("a"), POINT']);
  assert.deepEqual(elements.number.map((it) => it['data-index']), [0, 1, 3]);
  assert.equal(picture.words, 'Number 2 names key 0 again, which number 0 names.');
  assert.equal(shown('no_such_value').text('number 1'), '2: no such value');
  const record = recordOf(sample('key_twice'));
  record.layers[0].features[0].tags = [1, 0, 0, 0, 0, 0]; // (the first 0 is a value)
  assert.equal(pictureOfFault({ code: 304, layer: 0, feature: 0, index: 4 }, sample('key_twice'), record)?.words, 'Number 4 names key 0 again, which number 2 names.');
  assert.equal(shown('no_such_key').picture.words, 'Number 0 names key 1, and the layer has 1 key.');
  assert.equal(shown('odd_tags').text('number 1'), 'end: a value is due');
});

test('layers are listed', () => {
  const { picture, elements } = shown('name_of_first_layer');
  assert.deepEqual(elements.layer.map((it) => it['data-layer']), [1]);
  assert.deepEqual(picture.places.map(({ name }) => name), ['layer 0', 'layer 1', 'layer 2']);
  assert.match(picture.words, /Layers 0 and 2 are both named "a"/);
  assert.match(shown('version_one').picture.words, /Layer 0 has version 1/);
});

test('bytes have the fields that were read up to the fault, and the message', () => {
  const { elements, text } = shown('cut_geometry');
  assert.deepEqual(elements.field.map((it) => it['data-offset']), [9, 11, 13, 14]);
  assert.equal(text('message'), 'feature 0 of layer 0 is bytes 9 to 15');
  assert.equal(text('name of the layer'), '"a"');
  assert.equal(text('byte 9'), 'field 3 (type), varint: 1');
  assert.equal(text('byte 11'), 'field 4 (geometry), length and bytes: 3 bytes');
  assert.equal(text('byte 14'), 'number 1 of geometry: 50');
  assert.deepEqual(elements.byte.map((it) => it['data-offset']), Array.from({ length: 15 }, (_, k) => k));
});

/**
 * What the picture says of a fault in the only feature of a tile, at its byte.
 * @param {number[]} feature its fields
 * @param {{code: number, at: number, field: number}} fault its place from the feature's first byte on
 */
function saidInFeature(feature, { code, at, field: number }) {
  const tile = tileOf([field(2, feature)]), place = tile.length - feature.length + at;
  const picture = pictureOfFault({ code, at: place, field: number, scope: 'feature', layer: 0, feature: 0 }, tile, null);
  return picture?.places.find(({ name }) => name === `fault, byte ${place}`)?.text;
}

test('a list of numbers has two wire types of its own', () => {
  for (const [number, name] of /** @type {[number, string][]} */ ([[2, 'tags'], [4, 'geometry']])) {
    assert.equal(saidInFeature([number * 8 + 5, 1, 2, 3, 4, 0x18, 1], { code: 106, at: 0, field: number }),
      `field ${number} (${name}) has wire type 5 (four bytes), and its own is 2 (length and bytes), or 0 (varint) for a single number`);
  }
  assert.equal(saidInFeature([0x1a, 1, 1], { code: 106, at: 0, field: 3 }), 'field 3 (type) has wire type 2 (length and bytes), and its own is 0 (varint)');
});

test('the numbers of a list are counted from its first field on', () => {
  const earlier = [0x20, 9, ...field(4, [0x80, 1, 4]), 0x20, 10], late = field(4, [4, 0x80, 0x80, 0x80, 0x80, 0x10]);
  assert.equal(saidInFeature([...earlier, ...late], { code: 111, at: earlier.length + 3, field: 4 }), 'number 5 of geometry is 4294967296, which is above 4294967295');
});

test('a list before the fault is one field', () => {
  const { elements, text } = shown('first_layer_first');
  assert.deepEqual(elements.field.map((it) => it['data-offset']), [9]);
  assert.equal(text('byte 9'), 'field 4 (geometry), length and bytes: 3 bytes');
});

for (const [name, at, says] of /** @type {[string, number, string][]} */ ([
  ['cut_geometry', 15, 'the list of geometry ends in this varint, whose last byte says that more follows'],
  ['no_payload', 1, 'a varint is due, and the message ends'],
  ['long_key', 0, 'these ten bytes are no varint: the first nine say that more follows, and the tenth is above 1'],
  ['number_zero', 0, 'the field key 0 has the field number 0'],
  ['key_out_of_range', 0, 'the field key 4294967296 is above 4294967295'],
  ['group', 2, 'field 3 (layers) has wire type 3 (group)'],
  ['truncated', 0, 'field 3 (layers) has a payload of 14 bytes, and 13 are left'],
  ['overlong_length', 0, 'field 3 (layers) has a payload of 18446744073709551615 bytes, and 0 are left'],
  ['version_with_length', 2, 'field 15 (version) has wire type 2 (length and bytes), and its own is 0 (varint)'],
  ['version_twice', 4, 'field 15 (version) again, which occurs before'],
  ['empty_layer', 2, 'layer 0 ends here, and has no field 1 (name)'],
  ['empty_value', 9, 'value 0 of layer 0 ends here, and has none of string, float, double, int, uint, sint, bool'],
  ['value_of_two_kinds', 13, 'value 0 of layer 0 ends here, and has uint and bool'],
  ['name_not_utf8', 4, 'the text of field 1 (name) isn\'t UTF-8: "\ufffd"'],
  ['type_out_of_range', 10, 'field 3 (type) is 4, which is above 3'],
  ['version_out_of_range', 3, 'field 15 (version) is 4294967296, which is above 4294967295'],
])) {
  test(`${name}: what the fault's bytes say`, () => assert.equal(shown(name).text(`fault, byte ${at}`), says));
}

test('a fault that the tile doesn\'t have the parts of has no picture', () => {
  const tile = sample('crossing_edges'), record = recordOf(tile);
  const edge = { edge: 0, ring: 0 };
  assert.equal(pictureOfFault({ code: 504, layer: 0, feature: 0, polygon: 0, first: edge, second: { edge: 4, ring: 0 }, x: '0', y: '0', w: '1' }, tile, record), null);
  assert.equal(pictureOfFault({ code: 505, layer: 0, feature: 0, polygon: 1, ring: 0, vertex: 0 }, tile, record), null);
  assert.equal(pictureOfFault({ code: 502, layer: 0, feature: 0, ring: 1 }, tile, record), null);
  assert.equal(pictureOfFault({ code: 401, layer: 0, feature: 1, index: 0 }, tile, record), null);
  assert.equal(pictureOfFault({ code: 401, layer: 1, feature: 0, index: 0 }, tile, record), null);
  assert.equal(pictureOfFault({ code: 101, scope: 'layer', layer: 1, at: 0, field: 0 }, tile, null), null);
});
