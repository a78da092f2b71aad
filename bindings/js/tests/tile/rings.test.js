import assert from 'node:assert/strict';
import { test } from 'node:test';
import { POLYGON, followCommands } from '../../src/tile/commands.js';
import { doubledArea, edgeOf, groupRings, vertexOf } from '../../src/tile/rings.js';
import { recordOf } from '../picture/tools.js';
import { sample } from '../samples.js';

/** @param {string} name of a sample tile */
function ringsOf(name) {
  return followCommands(recordOf(sample(name)).layers[0].features[0].geometry, POLYGON);
}

/**
 * The numbers of one ring.
 * @param {[number, number][]} positions
 */
function numbersOf(positions) {
  const zigzag = (/** @type {number} */ step) => (step < 0 ? -2 * step - 1 : 2 * step);
  const steps = positions.map(([x, y], k) => (k === 0 ? [x, y] : [x - positions[k - 1][0], y - positions[k - 1][1]]).map(zigzag));
  return [9, ...steps[0], 8 * (positions.length - 1) + 2, ...steps.slice(1).flat(), 15];
}

test('vertices and edges are counted from 0, and the last edge goes back to vertex 0', () => {
  const figure = ringsOf('crossing_edges');
  assert.deepEqual(vertexOf(figure, 0, 3), { x: 0, y: 0 });
  assert.equal(vertexOf(figure, 0, 4), null);
  assert.equal(vertexOf(figure, 1, 0), null);
  assert.deepEqual(edgeOf(figure, 0, 0), { ring: 0, edge: 0, from: { x: 0, y: 8 }, to: { x: 10, y: 0 } });
  assert.deepEqual(edgeOf(figure, 0, 3), { ring: 0, edge: 3, from: { x: 0, y: 0 }, to: { x: 0, y: 8 } });
  assert.equal(edgeOf(figure, 0, 4), null);
});

test('the doubled area is exact, of small and of great coordinates', () => {
  // (0,8), (10,0), (10,10), (0,0): 0*0 - 10*8 + 10*10 - 10*0 + 10*0 - 0*10 + 0*8 - 0*0
  assert.equal(doubledArea(ringsOf('crossing_edges'), 0), 20n);
  assert.equal(doubledArea(ringsOf('greatest_square'), 0), 2n ** 63n);
  assert.equal(doubledArea(ringsOf('begins_with_hole'), 0), -200n);
  assert.equal(doubledArea(ringsOf('ring_without_area'), 0), 0n);
  const far = 2 ** 30 - 1;
  assert.equal(doubledArea(followCommands(numbersOf([[far, far], [far + 1, far], [far + 1, far + 1], [far, far + 1]]), POLYGON), 0), 2n);
});

test('sums of many great products are exact', () => {
  // A staircase of unit steps down the diagonal and back along its own hull: each step adds an area of 1.
  const far = 2 ** 24, steps = 5000;
  const stairs = Array.from({ length: 2 * steps + 1 }, (_, k) => /** @type {[number, number]} */ ([far + Math.ceil(k / 2), far + Math.floor(k / 2)]));
  const area = doubledArea(followCommands(numbersOf(stairs), POLYGON), 0);
  assert.equal(area, BigInt(steps));
});

test('sums that no double holds are exact', () => {
  // Five times round a square with sides of 2^26 - 1.
  const least = -(2 ** 25), greatest = 2 ** 25 - 1;
  const corners = /** @type {[number, number][]} */ ([[least, least], [greatest, least], [greatest, greatest], [least, greatest]]);
  const area = doubledArea(followCommands(numbersOf([...corners, ...corners, ...corners, ...corners, ...corners]), POLYGON), 0);
  assert.equal(area, 10n * (2n ** 26n - 1n) ** 2n);
});

test('each exterior begins a polygon, and the rings after it are its holes', () => {
  assert.deepEqual(groupRings(ringsOf('polygon_with_hole')).polygons, [{ rings: [0] }, { rings: [1, 2] }]);
  assert.deepEqual(groupRings(ringsOf('island_in_hole')).polygons, [{ rings: [0, 1] }, { rings: [2] }]);
  assert.deepEqual(groupRings(ringsOf('hole_in_hole')).polygonOfRing, [0, 0, 0]);
  assert.deepEqual(groupRings(ringsOf('ring_before_polygon')).polygons, [{ rings: [0, 1, 2] }]); // (ring 2 has no area)
  assert.deepEqual(groupRings(ringsOf('begins_with_hole')), { areas: [-200n], polygons: [], polygonOfRing: [-1] });
});
