import assert from 'node:assert/strict';
import { test } from 'node:test';
import { pictureOfMended, toText, toTree } from '../../src/picture/index.js';

/** @typedef {import('../../src/picture/types.js').Feature} Feature */
/** @typedef {import('../../src/picture/tree.js').Tree} Tree */

/** @param {number} number */
const zigzag = (number) => (number < 0 ? -2 * number - 1 : 2 * number);

/**
 * @param {[number, number][][]} rings
 * @returns {Feature} of polygons
 */
function polygons(rings) {
  let [x, y] = [0, 0];
  const step = (/** @type {[number, number]} */ [toX, toY]) => {
    const numbers = [zigzag(toX - x), zigzag(toY - y)];
    [x, y] = [toX, toY];
    return numbers;
  };
  const geometry = rings.flatMap(([first, ...others]) => [9, ...step(first), 8 * others.length + 2, ...others.flatMap(step), 15]);
  return { geometry, id: null, tags: [], type: 3 };
}

/**
 * @param {Feature} before
 * @param {Feature|null} after
 * @param {{x: number, y: number}|null} [at]
 */
function pictureOf(before, after, at) {
  const layer = { extent: 4096, features: [before], keys: [], name: 'a', values: [], version: 2 };
  return pictureOfMended({ feature: before, layer, extent: 4096 }, after, at);
}

/**
 * @param {Tree|string} node
 * @returns {Tree[]}
 */
const all = (node) => (typeof node === 'string' ? [] : [node, ...node.children.flatMap(all)]);

/**
 * @param {import('../../src/picture/types.js').Picture} picture
 * @param {string} role
 */
const drawn = (picture, role) => all(toTree(picture)).filter(({ attributes }) => attributes['data-role'] === role);

const LAKE = polygons([[[0, 0], [100, 0], [100, 100], [0, 100]], [[0, 50], [50, 60], [50, 40]]]);
const CUT = polygons([[[0, 0], [100, 0], [100, 100], [0, 100]], [[1, 51], [50, 60], [50, 40], [1, 50]]]);

test('what was filled, what is filled, and both', () => {
  const picture = pictureOf(LAKE, CUT);
  assert.deepEqual([picture.kind, picture.title, picture.words], ['mended', 'The feature before and after', 'What was cut away is red, and what was added is blue.']);
  const areas = ['cut', 'added', 'kept'].map((role) => drawn(picture, role));
  assert.deepEqual(areas.map(({ length }) => length), [1, 1, 1]);
  const [[before], [after], [kept]] = areas;
  assert.notEqual(before.attributes.d, after.attributes.d);
  // (what is kept is what is filled now, within what was filled)
  assert.equal(kept.attributes.d, after.attributes.d);
  const clips = all(toTree(picture)).filter(({ name }) => name === 'clipPath');
  assert.equal(clips.length, 1);
  assert.equal(kept.attributes['clip-path'], `url(#${clips[0].attributes.id})`);
  assert.deepEqual(/** @type {Tree[]} */ (clips[0].children).map(({ attributes }) => attributes.d), [before.attributes.d]);
  const order = all(toTree(picture)).flatMap(({ attributes }) => (['cut', 'added', 'kept', 'before', 'after'].includes(String(attributes['data-role'])) ? [attributes['data-role']] : []));
  assert.deepEqual(order, ['cut', 'added', 'kept', 'before', 'after']);
});

test('each polygon is filled by itself', () => {
  const square = (/** @type {number} */ x) => /** @type {[number, number][]} */ ([[x, 0], [x + 10, 0], [x + 10, 10], [x, 10]]);
  const picture = pictureOf(polygons([square(0), square(5)]), polygons([[[0, 0], [15, 0], [15, 10], [0, 10]]]));
  assert.deepEqual(['cut', 'added', 'kept'].map((role) => drawn(picture, role).length), [2, 1, 1]);
  const [clip] = all(toTree(picture)).filter(({ name }) => name === 'clipPath');
  assert.equal(clip.children.length, 2);
});

test('the numbers beside it', () => {
  const texts = Object.fromEntries(pictureOf(LAKE, CUT).places.map(({ name, text }) => [name, text]));
  assert.deepEqual(texts, {
    'before': '1 polygon, 2 rings, 7 vertices, doubled area 19000', 'after': '1 polygon, 2 rings, 8 vertices, doubled area 18971',
    'positions that went': '1', 'positions that came': '2',
  });
});

test('the close view is at the change that is nearest to the fault', () => {
  const after = polygons([[[0, 0], [100, 0], [99, 100], [0, 100]], [[1, 51], [50, 60], [50, 40], [1, 50]]]);
  assert.deepEqual(pictureOf(LAKE, after).close, { left: 88, top: 88, right: 112, bottom: 112 });
  assert.deepEqual(pictureOf(LAKE, after, { x: 0, y: 50.2 }).close, { left: -12, top: 38, right: 12, bottom: 62 });
  assert.equal(pictureOf(LAKE, LAKE).close, null);
});

test('a feature that was left out', () => {
  const picture = pictureOf(LAKE, null);
  assert.equal(picture.title, 'The feature that was left out');
  assert.deepEqual(['cut', 'added', 'kept', 'before', 'after'].map((role) => drawn(picture, role).length), [1, 0, 0, 1, 0]);
  assert.equal(picture.places[1].text, 'nothing');
});

test('numbers that draw nothing, and rings without an exterior', () => {
  const nothing = { geometry: [], id: null, tags: [], type: 3 };
  assert.ok(toText(pictureOf(nothing, LAKE)).startsWith('<?xml'));
  const hole = polygons([[[0, 0], [0, 9], [9, 9]]]);
  assert.deepEqual(['cut', 'added', 'kept'].map((role) => drawn(pictureOf(hole, LAKE), role).length), [1, 1, 1]);
});

test('a large feature is drawn near the change', () => {
  const ring = /** @type {[number, number][]} */ (Array.from({ length: 200001 }, (_, at) => [at, at % 2]));
  const picture = pictureOf(polygons([[...ring, [100000, -900]]]), polygons([[...ring, [100001, -900]]]));
  assert.ok(picture.words.endsWith('only what is near this place is drawn.'));
  assert.equal(drawn(picture, 'cut').length, 0);
  assert.ok(toText(picture).length < 1 << 20);
});
