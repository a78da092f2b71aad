// Numbers in words.
import assert from 'node:assert/strict';
import { test } from 'node:test';
import { counted, digits, listed, shortSize, sizeText, timeText } from '../../site/app/tools/text.js';

test('counts', () => {
  assert.equal(digits(67108864), '67,108,864');
  assert.deepEqual([0, 1, 2, 1000].map((it) => counted(it, 'layer')), ['0 layers', '1 layer', '2 layers', '1,000 layers']);
  assert.equal(counted(2, 'entry', 'entries'), '2 entries');
});

test('sizes', () => {
  assert.deepEqual([0, 1, 1023].map(sizeText), ['0 bytes', '1 byte', '1,023 bytes']);
  assert.equal(sizeText(1024), '1.0 KiB (1,024 bytes)');
  assert.equal(sizeText(67108864), '64.0 MiB (67,108,864 bytes)');
  assert.deepEqual([1 << 20, 3 * 2 ** 30, 5 * 2 ** 40].map(shortSize), ['1.0 MiB', '3.0 GiB', '5120.0 GiB']);
});

test('times', () => {
  assert.deepEqual([1, 1.26, 9.94, 10, 999, 1000, 71234].map(timeText), ['1 ms', '1.3 ms', '9.9 ms', '10 ms', '999 ms', '1.0 s', '71.2 s']);
});

test('a time below what a coarse clock can tell is no zero', () => {
  assert.deepEqual([0, 0.04, 0.99].map(timeText), ['less than 1 ms', 'less than 1 ms', 'less than 1 ms']);
});

test('lists', () => {
  assert.deepEqual([[], ['a'], ['a', 'b'], ['a', 'b', 'c']].map(listed), ['', 'a', 'a and b', 'a, b and c']);
});
