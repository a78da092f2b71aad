import assert from 'node:assert/strict';
import { test } from 'node:test';
import { firstLines } from '../../src/gate/lines.js';

/** @param {string} text @param {number} limit */
const first = (text, limit) => firstLines(new TextEncoder().encode(text), limit);

test('lines are counted, and the first ones are measured', () => {
  const text = 'a\nbcd\n\n\u00e9\n';
  assert.deepEqual(first(text, 0), { count: 4, length: 0 });
  assert.deepEqual(first(text, 1), { count: 4, length: 2 });
  assert.deepEqual(first(text, 3), { count: 4, length: 7 });
  assert.deepEqual(first(text, 4), { count: 4, length: 10 });
  assert.deepEqual(first(text, 9), { count: 4, length: 10 });
  assert.deepEqual(first('', 9), { count: 0, length: 0 });
});
