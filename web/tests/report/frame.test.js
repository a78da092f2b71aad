// The part of the map that is seen.

import assert from 'node:assert/strict';
import { test } from 'node:test';
import { WHOLE, cellAt, enlarged, moved, showing, sidesOf, within } from '../../site/report/map/frame.js';

const CELLS = { columns: 100, rows: 50 }, SIZE = { width: 400, height: 200 };
const near = (found, wanted) => Object.keys(wanted).forEach((key) => assert.ok(Math.abs(found[key] - wanted[key]) < 1e-9, `${key}: ${found[key]} for ${wanted[key]}`));

test('the whole map is seen at first', () => {
  assert.deepEqual(sidesOf(WHOLE, CELLS, SIZE), { across: 4, down: 4 });
  assert.deepEqual(cellAt(WHOLE, CELLS, SIZE, 0, 0), { column: 0, row: 0 });
  assert.deepEqual(cellAt(WHOLE, CELLS, SIZE, 399.9, 199.9), { column: 99, row: 49 });
  for (const [x, y] of [[-1, 5], [5, -1], [400, 5], [5, 200]]) assert.equal(cellAt(WHOLE, CELLS, SIZE, x, y), null);
});

test('a point stays where it is while the map is enlarged', () => {
  const at = [130, 70], before = cellAt(WHOLE, CELLS, SIZE, ...at);
  let frame = WHOLE;
  for (let steps = 0; steps < 5; steps += 1) {
    frame = enlarged(frame, CELLS, SIZE, 1, ...at);
    assert.deepEqual(cellAt(frame, CELLS, SIZE, ...at), before);
  }
  near(frame, { scale: 1.6 ** 5 });
  near(enlarged(frame, CELLS, SIZE, -5, ...at), WHOLE);
});

test('a cell has at most 64 pixels, and nothing is seen beside the map', () => {
  const most = enlarged(WHOLE, CELLS, SIZE, 99, 400, 200);
  near(most, { scale: 16, left: 100 - 100 / 16, top: 50 - 50 / 16 });
  near(moved(most, CELLS, SIZE, 50000, 50000), { scale: 16, left: 0, top: 0 });
  near(moved(most, CELLS, SIZE, -50000, -50000), most);
  near(within({ scale: 0.1, left: -5, top: 70 }, CELLS, SIZE), WHOLE);
  assert.deepEqual(within({ scale: 4, left: 0, top: 0 }, { columns: 1, rows: 1 }, { width: 90, height: 90 }), WHOLE);
});

test('the map goes with the pointer', () => {
  const frame = within({ scale: 4, left: 20, top: 10 }, CELLS, SIZE);
  near(moved(frame, CELLS, SIZE, -32, 16), { scale: 4, left: 22, top: 9 });
});

test('a cell is shown by the least move', () => {
  const frame = within({ scale: 4, left: 20, top: 10 }, CELLS, SIZE);
  assert.deepEqual(showing(frame, CELLS, SIZE, 30, 15), frame);
  near(showing(frame, CELLS, SIZE, 19, 15), { left: 19, top: 10 });
  near(showing(frame, CELLS, SIZE, 45, 40), { left: 21, top: 28.5 });
});
