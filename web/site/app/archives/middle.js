// A tile in the middle of an archive's tiles, by which a grid of them can begin.

/**
 * The least place from `at` on, before the end, where there is something; null where there is none.
 * @typedef {(at: number) => Promise<number|null>} NextFrom
 */

/**
 * A place near the middle between the first and the last one where there is something; null where there is none.
 * @param {number} begin
 * @param {number} end after the last place
 * @param {NextFrom} nextFrom
 * @returns {Promise<number|null>}
 */
export async function middleOf(begin, end, nextFrom) {
  const first = await nextFrom(begin);
  if (first === null) return null;
  const last = await lastOf(first, end, nextFrom);
  return nextFrom(first + Math.floor((last - first) / 2));
}

/**
 * The last place where there is something, by halves.
 * @param {number} first where there is something
 * @param {number} end
 * @param {NextFrom} nextFrom
 */
async function lastOf(first, end, nextFrom) {
  let last = first, after = end;
  while (after - last > 1) {
    const half = last + Math.floor((after - last) / 2), found = await nextFrom(half);
    if (found === null) after = half;
    else last = found;
  }
  return last;
}
