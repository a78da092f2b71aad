// Numbers in words, as the page shows them.

const UNITS = ['bytes', 'KiB', 'MiB', 'GiB'];

/**
 * A whole number with separators: 67,108,864.
 * @param {number} number
 */
export function digits(number) {
  return number.toLocaleString('en');
}

/**
 * '1 layer', '2 layers'.
 * @param {number} number
 * @param {string} one
 * @param {string} [many]
 */
export function counted(number, one, many = `${one}s`) {
  return `${digits(number)} ${number === 1 ? one : many}`;
}

/**
 * A size in bytes, and from 1 KiB on also in the unit that makes it short.
 * @param {number} bytes
 */
export function sizeText(bytes) {
  const short = shortSize(bytes);
  return bytes < 1024 ? short : `${short} (${digits(bytes)} bytes)`;
}

/**
 * @param {number} bytes
 */
export function shortSize(bytes) {
  const power = Math.min(Math.floor(Math.log2(Math.max(bytes, 1)) / 10), UNITS.length - 1);
  return power === 0 ? counted(bytes, 'byte') : `${(bytes / 1024 ** power).toFixed(1)} ${UNITS[power]}`;
}

/**
 * A time with as many digits as it is worth. (The clock of some browsers goes by whole milliseconds.)
 * @param {number} milliseconds
 */
export function timeText(milliseconds) {
  if (milliseconds < 1) return 'less than 1 ms';
  if (milliseconds < 10) return `${Number(milliseconds.toFixed(1))} ms`;
  return milliseconds < 1000 ? `${milliseconds.toFixed(0)} ms` : `${(milliseconds / 1000).toFixed(1)} s`;
}

/**
 * 'a', 'a and b', 'a, b and c'.
 * @param {string[]} parts
 */
export function listed(parts) {
  return parts.length < 2 ? parts.join('') : `${parts.slice(0, -1).join(', ')} and ${parts[parts.length - 1]}`;
}
