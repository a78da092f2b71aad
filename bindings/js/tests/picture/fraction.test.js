import assert from 'node:assert/strict';
import { test } from 'node:test';
import { decimalText, doubleOf, exactText, fraction, fractionText } from '../../src/picture/fraction.js';

test('fractions are in lowest terms', () => {
  assert.equal(fractionText(fraction(800n, 180n)), '40/9');
  assert.equal(fractionText(fraction(-800n, 180n)), '-40/9');
  assert.equal(fractionText(fraction(8000n, 400n)), '20');
  assert.equal(fractionText(fraction(0n, 7n)), '0');
  assert.equal(fractionText(fraction(-10n, 5n)), '-2');
});

test('decimals are whole where they are short, and cut off with an ellipsis where not', () => {
  const text = (/** @type {bigint} */ numerator, /** @type {bigint} */ denominator) => decimalText(fraction(numerator, denominator));
  assert.equal(text(40n, 9n), '4.444444…');
  assert.equal(text(-40n, 9n), '-4.444444…');
  assert.equal(text(2n, 3n), '0.666666…');
  assert.equal(text(-1n, 3n), '-0.333333…');
  assert.equal(text(5n, 2n), '2.5');
  assert.equal(text(-1n, 8n), '-0.125');
  assert.equal(text(1n, 4096n), '0.000244140625');
  assert.equal(text(100n, 1n), '100');
});

test('a decimal has enough digits to differ from those with fewer', () => {
  assert.equal(decimalText(fraction(10n ** 12n + 1n, 3n * 10n ** 12n)), '0.333333…');
  assert.equal(decimalText(fraction(3n * 10n ** 9n + 1n, 6n * 10n ** 9n)), '0.5000000001…');
  assert.equal(decimalText(fraction(10n ** 13n - 1n, 10n ** 13n)), '0.9999999999999');
  // -0.7500000000582076609541249887..
  assert.equal(decimalText(fraction(-6917529020124889090n, 9223372026117357571n)), '-0.75000000005…');
});

test('both are said', () => {
  assert.equal(exactText(fraction(800n, 180n)), '40/9 = 4.444444…');
  assert.equal(exactText(fraction(50n, 10n)), '5');
  assert.equal(exactText(fraction(5n, 2n)), '5/2 = 2.5');
});

test('the double is the nearest one that drawing needs', () => {
  assert.equal(doubleOf(fraction(5n, 2n)), 2.5);
  assert.equal(doubleOf(fraction(-5n, 2n)), -2.5);
  assert.ok(Math.abs(doubleOf(fraction(40n, 9n)) - 40 / 9) < 1e-15);
  assert.equal(doubleOf(fraction(2n ** 93n * 3n, 2n ** 64n)), 3 * 2 ** 29);
});
