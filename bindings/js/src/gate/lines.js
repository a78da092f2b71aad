/** Lines in bytes, as the gate writes them. */

const LINE_END = 10;

/**
 * @param {Uint8Array} bytes of lines, each with its end
 * @param {number} limit
 * @returns {{count: number, length: number}} how many lines there are, and how many bytes the first ones have, up to the limit
 */
export function firstLines(bytes, limit) {
  let [count, length] = [0, 0];
  for (let end = bytes.indexOf(LINE_END); end >= 0; end = bytes.indexOf(LINE_END, end + 1)) {
    count += 1;
    if (count <= limit) length = end + 1;
  }
  return { count, length };
}
