import assert from 'node:assert/strict';
import { existsSync, readFileSync } from 'node:fs';
import { test } from 'node:test';
import { fieldsBefore, messageOfFault, packedNumbersBefore, readVarint } from '../../src/tile/fields.js';
import { fieldsOf } from '../picture/tools.js';
import { SAMPLES, TOP, sample } from '../samples.js';

/** @typedef {import('../../src/tile/fields.js').WireFault} WireFault */

/**
 * @param {Uint8Array} tile
 * @returns {import('../../src/tile/fields.js').Message}
 */
function whole(tile) {
  return { kind: 'tile', name: 'the tile', at: 0, begin: 0, end: tile.length, outer: null };
}

test('varints of one to ten bytes are read, and no others', () => {
  const read = (/** @type {number[]} */ ...bytes) => readVarint(Uint8Array.from(bytes), 0, bytes.length);
  assert.deepEqual(read(0x02), { value: 2n, end: 1 });
  assert.deepEqual(read(0x82, 0x00), { value: 2n, end: 2 });
  assert.deepEqual(read(0x80, 0x80, 0x80, 0x80, 0x10), { value: 2n ** 32n, end: 5 });
  assert.deepEqual(read(0xff, 0xff, 0xff, 0xff, 0xff, 0xff, 0xff, 0x7f), { value: 2n ** 56n - 1n, end: 8 });
  assert.deepEqual(read(0xff, 0xff, 0xff, 0xff, 0xff, 0xff, 0xff, 0xff, 0xff, 0x01), { value: 2n ** 64n - 1n, end: 10 });
  assert.equal(read(0xff, 0xff, 0xff, 0xff, 0xff, 0xff, 0xff, 0xff, 0xff, 0x02), null);
  assert.equal(read(0x80, 0x80, 0x80, 0x80, 0x80, 0x80, 0x80, 0x80, 0x80, 0x80, 0x00), null);
  assert.equal(read(0x80), null);
  assert.equal(read(), null);
});

test('the outermost fields are those of the command `fields`', () => {
  let lines = 0;
  for (const { name, tile } of SAMPLES) {
    const path = `${TOP}tiles/expected/${name}.fields`;
    if (!existsSync(path)) continue;
    const expected = JSON.parse(readFileSync(path, 'utf8'));
    if (!expected.fields) continue;
    const fields = [...fieldsOf(tile, whole(tile))].map((it) => ({
      at: it.at, number: it.number, type: it.wireType, ...(it.varint === null ? { length: it.end - it.payload } : { value: Number(it.varint) }),
    }));
    // (the greatest number is no double: JSON.parse and Number round it alike)
    assert.deepEqual(fields, expected.fields, name);
    lines += 1;
  }
  assert.ok(lines >= 6);
});

test('a walk stops where no field can be read', () => {
  const stop = (/** @type {string} */ name) => fieldsBefore(sample(name), whole(sample(name)), 1000, 10).stop;
  assert.equal(stop('point'), 16);
  assert.equal(stop('fixed_fields'), 14);
  assert.equal(stop('greatest_number'), 11);
  assert.equal(stop('fault_behind_layer'), 14);
  assert.deepEqual(['cut_number', 'group'].map(stop), [2, 2]);
  assert.deepEqual(['truncated', 'long_key', 'number_zero', 'overlong_length', 'key_out_of_range', 'cut_key', 'no_payload', 'empty'].map(stop), [0, 0, 0, 0, 0, 0, 0, 0]);
});

test('a walk stops at a varint that is too long, and at a key out of range', () => {
  const stop = (/** @type {number[]} */ ...bytes) => fieldsBefore(Uint8Array.from(bytes), whole(Uint8Array.from(bytes)), 1000, 10).stop;
  assert.equal(stop(0x08, 0x80, 0x80, 0x80, 0x80, 0x80, 0x80, 0x80, 0x80, 0x80, 0x01), 11);
  assert.equal(stop(0x08, 0x80, 0x80, 0x80, 0x80, 0x80, 0x80, 0x80, 0x80, 0x80, 0x02), 0);
  assert.equal(stop(0xf8, 0xff, 0xff, 0xff, 0x0f, 0x05), 6);
  assert.equal(stop(0x80, 0x80, 0x80, 0x80, 0x10, 0x05), 0);
});

test('the message of a fault is found by walking the bytes', () => {
  const place = (/** @type {string} */ name, /** @type {object} */ fault) => {
    const message = messageOfFault(sample(name), /** @type {WireFault} */ (fault));
    return message && [message.name, message.begin, message.end];
  };
  assert.deepEqual(place('cut_geometry', { scope: 'tile' }), ['the tile', 0, 16]);
  assert.deepEqual(place('cut_geometry', { scope: 'layer', layer: 0 }), ['layer 0', 2, 16]);
  assert.deepEqual(place('cut_geometry', { scope: 'feature', layer: 0, feature: 0 }), ['feature 0 of layer 0', 9, 16]);
  assert.deepEqual(place('string_not_utf8', { scope: 'value', layer: 0, value: 0 }), ['value 0 of layer 0', 9, 12]);
  assert.deepEqual(place('first_layer_first', { scope: 'layer', layer: 1 }), ['layer 1', 16, 16]);
  assert.equal(place('cut_geometry', { scope: 'layer', layer: 1 }), null);
  assert.equal(place('cut_geometry', { scope: 'value', layer: 0, value: 0 }), null);
});

test('the fields before a place, the last ones where there are many', () => {
  const tile = Uint8Array.from(Array.from({ length: 1000 }, () => [0x08, 0x05]).flat());
  const { fields, omitted, stop } = fieldsBefore(tile, whole(tile), 1200, 7);
  assert.deepEqual(fields.map(({ at }) => at), [1186, 1188, 1190, 1192, 1194, 1196, 1198]);
  assert.equal(omitted, 593);
  assert.equal(stop, 1200);
});

test('the fields of a message have the names of the schema', () => {
  const tile = sample('cut_geometry');
  const message = messageOfFault(tile, /** @type {WireFault} */ ({ scope: 'feature', layer: 0, feature: 0 }));
  assert.ok(message);
  assert.deepEqual([...fieldsOf(tile, message)].map(({ at, payload, end, name }) => [at, payload, end, name]), [[9, 10, 11, 'type'], [11, 13, 16, 'geometry']]);
});

test('the numbers of a packed list before a place', () => {
  const tile = sample('cut_geometry');
  const message = messageOfFault(tile, /** @type {WireFault} */ ({ scope: 'feature', layer: 0, feature: 0 }));
  assert.ok(message);
  const [, list] = fieldsOf(tile, message);
  assert.deepEqual(packedNumbersBefore(tile, message, list, 15, 10), { numbers: [{ at: 13, end: 14, value: 9n, index: 0 }, { at: 14, end: 15, value: 50n, index: 1 }], count: 2 });
});

test('the numbers of a packed list go on from its earlier fields', () => {
  const tile = sample('no_step_in_three_fields');
  const message = messageOfFault(tile, /** @type {WireFault} */ ({ scope: 'feature', layer: 0, feature: 0 }));
  assert.ok(message);
  const list = [...fieldsOf(tile, message)].pop();
  assert.ok(list);
  const { numbers, count } = packedNumbersBefore(tile, message, list, list.end, 2);
  assert.deepEqual([numbers.map(({ value, index }) => [value, index]), count], [[[10n, 7], [15n, 8]], 9]);
});
