import { varint } from '../wire.js';

/**
 * @param {Uint8Array} bytes
 * @param {number} at
 * @returns {{number: number, end: number}} the LEB128 number at a place, and the place after it
 */
function readNumber(bytes, at) {
  let [number, shift, end] = [0, 0, at];
  do {
    number |= (bytes[end] & 127) << shift;
    shift += 7;
  } while (bytes[end++] >= 128);
  return { number, end };
}

/**
 * @param {Uint8Array} module
 * @param {number} pages of 64 KiB
 * @returns {Uint8Array} the module with a memory that can't be larger
 */
export function withGreatestMemory(module, pages) {
  const MEMORY = 5;
  let at = 8;
  while (module[at] !== MEMORY) {
    const { number, end } = readNumber(module, at + 1);
    at = end + number;
  }
  const { number: length, end: content } = readNumber(module, at + 1);
  // (one memory, a flag that says that it has a greatest size, and its sizes)
  const { number: least } = readNumber(module, content + 2);
  const limits = [1, 1, ...varint(least), ...varint(pages)];
  return new Uint8Array([...module.slice(0, at), MEMORY, ...varint(limits.length), ...limits, ...module.slice(content + length)]);
}
