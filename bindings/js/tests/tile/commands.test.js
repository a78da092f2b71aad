import assert from 'node:assert/strict';
import { test } from 'node:test';
import { LINESTRING, POINT, POLYGON, commandOf, decodeNumbers, followCommands, parameterOf } from '../../src/tile/commands.js';
import { allowedCount, commandAround, dueAt } from '../../src/tile/due.js';

/** @param {import('../../src/tile/commands.js').Figure} figure */
function positions(figure) {
  return Array.from({ length: figure.count }, (_, k) => [figure.xs[k], figure.ys[k]]);
}

// The numbers of sample tiles, as tiles/README.md has their bytes.
const POLYGON_NUMBERS = [9, 6, 12, 18, 10, 12, 24, 44, 15];
const LINE_NUMBERS = [9, 4, 4, 18, 0, 16, 16, 0];

test('a parameter is the zigzag form of a signed number', () => {
  assert.deepEqual([0, 1, 2, 3, 4294967294, 4294967295].map(parameterOf), [0, -1, 1, -2, 2147483647, -2147483648]);
});

test('a command is its id and its count', () => {
  assert.deepEqual(commandOf(9), { id: 1, count: 1, name: 'MoveTo' });
  assert.deepEqual(commandOf(26), { id: 2, count: 3, name: 'LineTo' });
  assert.deepEqual(commandOf(15), { id: 7, count: 1, name: 'ClosePath' });
  assert.deepEqual(commandOf(11), { id: 3, count: 1, name: null });
  assert.deepEqual(commandOf(4294967289), { id: 1, count: 536870911, name: 'MoveTo' });
});

test('a ring is followed, with the place of each position in the list', () => {
  const figure = followCommands(POLYGON_NUMBERS, POLYGON);
  assert.deepEqual(positions(figure), [[3, 6], [8, 12], [20, 34]]);
  assert.deepEqual([...figure.at.slice(0, 3)], [1, 4, 6]);
  assert.deepEqual(figure.paths, [{ first: 0, count: 3, closed: true }]);
  assert.equal(figure.followed, 9);
});

test('a line begins with each MoveTo, and goes on from the last position', () => {
  const figure = followCommands([...LINE_NUMBERS, 9, 17, 17, 10, 4, 8], LINESTRING);
  assert.deepEqual(positions(figure), [[2, 2], [2, 10], [10, 10], [1, 1], [3, 5]]);
  assert.deepEqual(figure.paths, [{ first: 0, count: 3, closed: false }, { first: 3, count: 2, closed: false }]);
});

test('points are one path', () => {
  const figure = followCommands([17, 10, 14, 3, 9], POINT);
  assert.deepEqual(positions(figure), [[5, 7], [3, 2]]);
  assert.equal(figure.paths.length, 1);
});

test('only the numbers before the end are followed', () => {
  assert.deepEqual(positions(followCommands(POLYGON_NUMBERS, POLYGON, 7)), [[3, 6], [8, 12]]);
  assert.deepEqual(positions(followCommands(POLYGON_NUMBERS, POLYGON, 8)), [[3, 6], [8, 12], [20, 34]]);
  assert.equal(followCommands(POLYGON_NUMBERS, POLYGON, 8).paths[0].closed, false);
  assert.equal(followCommands([], POINT).count, 0);
});

test('it stops at what is no command, and at a position out of range', () => {
  assert.equal(followCommands([11, 50, 34], POINT).count, 0);
  assert.equal(followCommands([4294967289], POINT).count, 0);
  assert.deepEqual(positions(followCommands([9, 2147483648, 0], POINT)), [[2 ** 30, 0]]);
  assert.deepEqual(positions(followCommands([9, 2147483647, 0], POINT)), [[-(2 ** 30), 0]]);
  assert.equal(followCommands([9, 2147483650, 0], POINT).count, 0);
  assert.deepEqual(positions(followCommands([17, 2147483648, 0, 4294967295, 0], POINT)), [[2 ** 30, 0]]);
});

test('numbers are decoded in a range of the list', () => {
  assert.deepEqual(decodeNumbers(POLYGON_NUMBERS, 3, 6), [
    { index: 3, number: 18, kind: 'command', text: 'LineTo × 2' },
    { index: 4, number: 10, kind: 'x', text: 'dX 5' },
    { index: 5, number: 12, kind: 'y', text: 'dY 6' },
  ]);
  assert.deepEqual(decodeNumbers(POLYGON_NUMBERS, 8, 20).map(({ text }) => text), ['ClosePath × 1']);
  assert.deepEqual(decodeNumbers([11, 50, 34], 0, 3).map(({ kind, text }) => [kind, text]), [['command', 'no command (id 3)'], ['unread', ''], ['unread', '']]);
});

test('what is due at a place', () => {
  assert.deepEqual(Array.from({ length: 10 }, (_, k) => dueAt(POLYGON_NUMBERS, POLYGON, k)),
    ['MoveTo', 'x', 'y', 'LineTo', 'x', 'y', 'x', 'y', 'ClosePath', 'MoveTo']);
  assert.deepEqual(Array.from({ length: 9 }, (_, k) => dueAt(LINE_NUMBERS, LINESTRING, k)),
    ['MoveTo', 'x', 'y', 'LineTo', 'x', 'y', 'x', 'y', 'MoveTo']);
  assert.deepEqual(Array.from({ length: 6 }, (_, k) => dueAt([17, 10, 14, 3, 9], POINT, k)), ['MoveTo', 'x', 'y', 'x', 'y', 'nothing']);
});

test('which command a number belongs to', () => {
  assert.deepEqual(Array.from({ length: 10 }, (_, k) => commandAround(POLYGON_NUMBERS, k)), [0, 0, 0, 3, 3, 3, 3, 3, 8, 8]);
  assert.equal(commandAround([], 0), -1);
  assert.equal(commandAround([4294967289], 1), 0);
});

test('which counts are allowed', () => {
  assert.equal(allowedCount('MoveTo', POINT), 'at least 1');
  assert.equal(allowedCount('MoveTo', LINESTRING), '1');
  assert.equal(allowedCount('LineTo', LINESTRING), 'at least 1');
  assert.equal(allowedCount('LineTo', POLYGON), 'at least 2');
  assert.equal(allowedCount('ClosePath', POLYGON), '1');
});
