// The rings of a figure and their polygons, counted as faults count them: rings among all rings of the feature, edge k from vertex k to
// the next one, the last edge back to vertex 0.

/** @typedef {import('./commands.js').Figure} Figure */
/** @typedef {{x: number, y: number}} Position */
/** @typedef {{ring: number, edge: number, from: Position, to: Position}} Edge */

// Products of coordinates up to this are exact as doubles, and so are sums of a few of them.
const SMALL_COORDINATE = 2 ** 25;
const LARGE_SUM = 2 ** 52;

/**
 * @param {Figure} figure
 * @param {number} ring
 * @returns {number}
 */
export function vertexCount(figure, ring) {
  return figure.paths[ring].count;
}

/**
 * @param {Figure} figure
 * @param {number} ring
 * @param {number} vertex
 * @returns {Position|null} null where there is none
 */
export function vertexOf(figure, ring, vertex) {
  const path = figure.paths[ring];
  if (!path || vertex >= path.count) return null;
  return { x: figure.xs[path.first + vertex], y: figure.ys[path.first + vertex] };
}

/**
 * @param {Figure} figure
 * @param {number} ring
 * @param {number} edge
 * @returns {Edge|null} null where there is none
 */
export function edgeOf(figure, ring, edge) {
  const from = vertexOf(figure, ring, edge);
  if (!from) return null;
  const to = vertexOf(figure, ring, (edge + 1) % vertexCount(figure, ring));
  return to && { ring, edge, from, to };
}

/**
 * The doubled area of a ring, exactly: the sum of a.x * b.y - b.x * a.y over its edges from a to b. It is positive for an exterior and
 * negative for a hole.
 * @param {Figure} figure
 * @param {number} ring
 * @returns {bigint}
 */
export function doubledArea(figure, ring) {
  const { first, count } = figure.paths[ring];
  let area = 0n, sum = 0;
  for (let k = 0; k < count; k += 1) {
    const a = first + k, b = first + (k + 1 === count ? 0 : k + 1);
    const term = crossProduct(figure.xs[a], figure.ys[a], figure.xs[b], figure.ys[b]);
    if (typeof term === 'bigint') area += term;
    else sum += term;
    if (Math.abs(sum) >= LARGE_SUM) {
      area += BigInt(sum);
      sum = 0;
    }
  }
  return area + BigInt(sum);
}

/**
 * @param {number} ax
 * @param {number} ay
 * @param {number} bx
 * @param {number} by
 * @returns {number|bigint} exact: a double where that holds it
 */
function crossProduct(ax, ay, bx, by) {
  const greatest = Math.max(Math.abs(ax), Math.abs(ay), Math.abs(bx), Math.abs(by));
  if (greatest <= SMALL_COORDINATE) return ax * by - bx * ay;
  return BigInt(ax) * BigInt(by) - BigInt(bx) * BigInt(ay);
}

/**
 * A polygon of a feature: its exterior is the first of its rings, the others are its holes.
 * @typedef {{rings: number[]}} Polygon
 */

/**
 * The polygons of a feature: each ring of positive area begins one. Rings before the first exterior belong to none.
 * @param {Figure} figure
 * @returns {{areas: bigint[], polygons: Polygon[], polygonOfRing: number[]}}
 */
export function groupRings(figure) {
  const areas = figure.paths.map((_, ring) => doubledArea(figure, ring));
  const polygons = /** @type {Polygon[]} */ ([]);
  const polygonOfRing = areas.map((area, ring) => {
    if (area > 0n) polygons.push({ rings: [] });
    polygons[polygons.length - 1]?.rings.push(ring);
    return polygons.length - 1;
  });
  return { areas, polygons, polygonOfRing };
}
