import assert from 'node:assert/strict';
import { test } from 'node:test';
import { pictureOfFault } from '../../src/picture/index.js';
import { clip, clipSegment } from '../../src/picture/plane/clip.js';
import { frameOf } from '../../src/picture/plane/frame.js';
import { gridOf, labelStep, rulersOf } from '../../src/picture/plane/grid.js';
import { near } from '../../src/picture/plane/near.js';
import { pathData } from '../../src/picture/plane/paths.js';
import { line, shape } from '../../src/picture/plane/scene.js';
import { elementsOf, positionsOf, recordOf } from './tools.js';
import { sample } from '../samples.js';

const BOX = { left: 0, top: 0, right: 10, bottom: 10 };

/**
 * @param {[number, number][]} positions
 * @param {boolean} closed
 */
function lineThrough(positions, closed) {
  return line(positions.map(([x]) => x), positions.map(([, y]) => y), 0, positions.length, closed);
}

test('a box is laid in the middle of a drawing, as large as it fits', () => {
  assert.deepEqual(frameOf(BOX, 800, 400), { box: { left: -5, top: 0, right: 15, bottom: 10 }, width: 800, height: 400, scale: 40 });
  assert.deepEqual(frameOf(BOX, 100, 400).box, { left: 0, top: -15, right: 10, bottom: 25 });
});

test('a segment is cut at the sides of a box', () => {
  assert.deepEqual(clipSegment(-10, 5, 30, 5, BOX), { fromX: 0, fromY: 5, toX: 10, toY: 5, reachesEnd: false });
  assert.deepEqual(clipSegment(5, 5, 7, 6, BOX), { fromX: 5, fromY: 5, toX: 7, toY: 6, reachesEnd: true });
  assert.deepEqual(clipSegment(-5, 0, 5, 10, BOX), { fromX: 0, fromY: 5, toX: 5, toY: 10, reachesEnd: true });
  assert.equal(clipSegment(-5, -5, -1, 30, BOX), null);
  assert.equal(clipSegment(12, 3, 12, 4, BOX), null);
});

test('a line is cut into the pieces that are in a box', () => {
  const pieces = clip(lineThrough([[-5, 5], [5, 5], [5, 20], [8, 20], [8, 5]], false), BOX);
  assert.deepEqual(pieces, [{ xs: [0, 5, 5], ys: [5, 5, 10], closed: false }, { xs: [8, 8], ys: [10, 5], closed: false }]);
  const again = clip(lineThrough([[5, 5], [5, 20], [9, 0]], false), BOX); // out, and in again by the next segment
  assert.deepEqual(again, [{ xs: [5, 5], ys: [5, 10], closed: false }, { xs: [7, 9], ys: [10, 0], closed: false }]);
});

test('a ring around a box is cut to the box, and one beside it to nothing', () => {
  const [ring, ...more] = clip(lineThrough([[-100, -100], [100, -100], [100, 100], [-100, 100]], true), BOX);
  assert.equal(more.length, 0);
  const corners = Array.from({ length: ring.xs.length }, (_, k) => `${ring.xs[k]},${ring.ys[k]}`);
  assert.deepEqual(corners.sort(), ['0,0', '0,10', '10,0', '10,10']);
  assert.deepEqual(clip(lineThrough([[20, 0], [30, 0], [30, 10]], true), BOX), []);
});

/**
 * Whether an odd number of a ring's edges pass over a point.
 * @param {{xs: ArrayLike<number>, ys: ArrayLike<number>}[]} rings
 * @param {number} x
 * @param {number} y
 */
function isInside(rings, x, y) {
  let count = 0;
  for (const { xs, ys } of rings) {
    for (let a = 0, b = xs.length - 1; a < xs.length; b = a, a++) {
      if ((xs[a] <= x) !== (xs[b] <= x) && ys[a] + ((x - xs[a]) * (ys[b] - ys[a])) / (xs[b] - xs[a]) > y) count++;
    }
  }
  return count % 2 === 1;
}

test('in a box a ring that was cut covers what it covered', () => {
  let seed = 1;
  const random = (/** @type {number} */ from, /** @type {number} */ to) => {
    seed = (seed * 48271) % 2147483647; // (a known generator, so that a failure can be repeated)
    return from + ((to - from) * seed) / 2147483647;
  };
  for (let round = 0; round < 400; round++) {
    const ring = lineThrough(Array.from({ length: 3 + (round % 9) }, () => [Math.round(random(-12, 22)), Math.round(random(-12, 22))]), true);
    const cut = clip(ring, BOX);
    for (let k = 0; k < 25; k++) {
      const x = random(0.01, 9.99), y = random(0.01, 9.99);
      assert.equal(isInside(cut, x, y), isInside([ring], x, y), `round ${round}: ${x} ${y}`);
    }
    for (const { xs, ys } of cut.filter((it) => it !== ring)) {
      for (let k = 0; k < xs.length; k++) assert.ok(xs[k] >= -1e-9 && xs[k] <= 10 + 1e-9 && ys[k] >= -1e-9 && ys[k] <= 10 + 1e-9);
    }
  }
});

test('what is in a box is drawn as it is', () => {
  const inside = lineThrough([[1, 1], [9, 1], [9, 9]], true);
  assert.deepEqual(clip(inside, BOX), [inside]);
});

test('the edges near a place are open runs', () => {
  const ring = lineThrough([[0, 0], [10, 0], [20, 0], [20, 20], [0, 20]], true);
  const runs = near(ring, { left: -1, top: -1, right: 12, bottom: 1 });
  assert.deepEqual(runs.map(({ xs, first, count }) => Array.from({ length: count }, (_, k) => xs[first + k])), [[0, 10, 20], [0, 0]]);
  assert.deepEqual(near(ring, { left: 3, top: 3, right: 4, bottom: 4 }), []);
  assert.deepEqual(near({ ...ring, closed: false }, { left: -1, top: 5, right: 1, bottom: 6 }), []);
  assert.equal(near(ring, { left: -1, top: 5, right: 1, bottom: 6 }).length, 1);
});

test('path data is in pixels', () => {
  const data = pathData(shape('ring', {}, [lineThrough([[0, 0], [10, 0], [10, 10]], true)]), frameOf(BOX, 100, 100));
  assert.equal(data, 'M0 0L100 0L100 100Z');
  assert.equal(pathData(shape('points', {}, [lineThrough([[5, 5]], false)]), frameOf(BOX, 100, 100)), 'M50 50h0');
});

test('vertices that are one in the drawing are left out, but the last one', () => {
  const many = Array.from({ length: 1001 }, (_, k) => /** @type {[number, number]} */ ([k, 0]));
  const data = pathData(shape('line', {}, [lineThrough(many, false)]), frameOf({ left: 0, top: -50, right: 1000, bottom: 50 }, 100, 100));
  assert.ok(positionsOf(data).length <= 260);
  assert.deepEqual(positionsOf(data).at(-1), [100, 50]);
});

test('a drawing far from the origin is the same as near it', () => {
  const positions = /** @type {[number, number][]} */ ([[0, 8], [10, 0], [10, 10], [3, 1]]);
  const far = 2 ** 30 - 16;
  const moved = positions.map(([x, y]) => /** @type {[number, number]} */ ([x + far, y - far]));
  const box = { left: 4, top: 4, right: 4.5, bottom: 4.5 };
  const farBox = { left: 4 + far, top: 4 - far, right: 4.5 + far, bottom: 4.5 - far };
  const here = positionsOf(pathData(shape('ring', {}, [lineThrough(positions, true)]), frameOf(box, 800, 600)));
  const there = positionsOf(pathData(shape('ring', {}, [lineThrough(moved, true)]), frameOf(farBox, 800, 600)));
  assert.equal(there.length, here.length);
  here.forEach(([x, y], k) => assert.ok(Math.hypot(x - there[k][0], y - there[k][1]) < 0.05));
});

test('in the closest view edges across the whole plane go through the point that they have in common', () => {
  const tile = sample('crossing_across_plane');
  const fault = { code: 504, layer: 0, feature: 0, polygon: 0, first: { edge: 0, ring: 0 }, second: { edge: 2, ring: 0 },
    w: '9223372026117357571', x: '-6917529020124889090', y: '-6917529020124889090' };
  const picture = pictureOfFault(fault, tile, recordOf(tile));
  assert.ok(picture);
  const half = 2 ** -8, at = -3221225470 / 4294967293;
  const elements = elementsOf(picture, { left: at - half, top: at - half, right: at + half, bottom: at + half });
  const [, x, y] = /translate\((\S+) (\S+)\)/.exec(String(elements.point[0].transform)) ?? [];
  assert.deepEqual([Number(x), Number(y)], [400, 300]);
  for (const role of ['first-edge', 'second-edge']) {
    const [[ax, ay], [bx, by]] = positionsOf(elements[role][0].d);
    assert.ok(Math.abs((bx - ax) * (300 - ay) - (by - ay) * (400 - ax)) / Math.hypot(bx - ax, by - ay) < 0.5, role);
    for (const value of [ax, ay, bx, by]) assert.ok(value > -1000 && value < 1800);
  }
});

test('the grid is drawn where a unit has 12 pixels', () => {
  const drawn = (/** @type {number} */ scale) => gridOf(frameOf({ left: 0.5, top: 0.5, right: 0.5 + 100 / scale, bottom: 0.5 + 100 / scale }, 100, 100));
  assert.deepEqual(drawn(11.9), []);
  const [lines] = drawn(20); // from 0.5 to 5.5
  assert.equal(lines.attributes.d, 'M10 0V100M30 0V100M50 0V100M70 0V100M90 0V100M0 10H100M0 30H100M0 50H100M0 70H100M0 90H100');
});

test('labels are at whole coordinates', () => {
  assert.deepEqual([0.01, 1, 1.5, 2, 3, 7, 10, 11, 4999, 2 ** 30].map(labelStep), [1, 1, 2, 2, 5, 10, 10, 20, 5000, 2000000000]);
  const texts = rulersOf(frameOf({ left: -20, top: 0, right: 20, bottom: 30 }, 800, 600)).flatMap(({ children }) => children);
  assert.ok(texts.includes('-10') && texts.includes('0') && texts.includes('10'));
});
