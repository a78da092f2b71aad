// Fractions, exactly, and their texts.

/** @typedef {{numerator: bigint, denominator: bigint}} Fraction in lowest terms, with a denominator of at least 1 */

const LEAST_DIGITS = 6; // of a decimal that is cut off; one that ends after twice as many is written in full

/**
 * @param {bigint} numerator
 * @param {bigint} denominator not 0
 * @returns {Fraction}
 */
export function fraction(numerator, denominator) {
  const divisor = greatestDivisor(numerator, denominator) * (denominator < 0n ? -1n : 1n);
  return { numerator: numerator / divisor, denominator: denominator / divisor };
}

/**
 * @param {bigint} a
 * @param {bigint} b
 * @returns {bigint}
 */
function greatestDivisor(a, b) {
  let [left, right] = [a < 0n ? -a : a, b < 0n ? -b : b];
  while (right !== 0n) [left, right] = [right, left % right];
  return left;
}

/**
 * '40/9', or '5' of a whole number.
 * @param {Fraction} value
 * @returns {string}
 */
export function fractionText({ numerator, denominator }) {
  return denominator === 1n ? String(numerator) : `${numerator}/${denominator}`;
}

/**
 * A decimal: in full where it is short, else its first digits, cut off and with an ellipsis. There are so many that they can't be
 * mistaken for a number with fewer.
 * @param {Fraction} value
 * @param {number} [least] digits where it is cut off
 * @returns {string}
 */
export function decimalText(value, least = LEAST_DIGITS) {
  if (endsWithin(value, 2 * least)) return digitsOf(value, 2 * least).replace(/\.?0+$/, '');
  let places = least;
  while (/(000|999)$/.test(digitsOf(value, places)) && !endsWithin(value, places)) places += 1;
  return endsWithin(value, places) ? digitsOf(value, places) : `${digitsOf(value, places)}…`;
}

/**
 * @param {Fraction} value
 * @param {number} places
 * @returns {boolean} whether it has no more digits than these
 */
function endsWithin({ numerator, denominator }, places) {
  return (numerator * 10n ** BigInt(places)) % denominator === 0n;
}

/**
 * A decimal cut off after some places.
 * @param {Fraction} value
 * @param {number} places
 * @returns {string}
 */
function digitsOf({ numerator, denominator }, places) {
  const size = numerator < 0n ? -numerator : numerator;
  const digits = String((size * 10n ** BigInt(places)) / denominator).padStart(places + 1, '0');
  return `${numerator < 0n ? '-' : ''}${digits.slice(0, -places)}.${digits.slice(-places)}`;
}

/**
 * The nearest double, for drawing.
 * @param {Fraction} value
 * @returns {number}
 */
export function doubleOf({ numerator, denominator }) {
  const whole = numerator / denominator, rest = numerator % denominator;
  return Number(whole) + Number((rest * 2n ** 60n) / denominator) / 2 ** 60;
}

/**
 * '40/9 = 4.444444…', or '5'.
 * @param {Fraction} value
 * @returns {string}
 */
export function exactText(value) {
  return value.denominator === 1n ? fractionText(value) : `${fractionText(value)} = ${decimalText(value)}`;
}
