/** The sample tiles of the repository with their expected lines, and the built module, for the tests. */
import { existsSync, readFileSync, readdirSync } from 'node:fs';
import { fileURLToPath } from 'node:url';

export const TOP = fileURLToPath(new URL('../../../', import.meta.url));

/** The line that `mvtgate check` writes for a valid tile. */
export const YES = '{"ok":true}';

/** @returns {Uint8Array} the module that tools/page built */
export function moduleBytes() {
  return new Uint8Array(readFileSync(`${TOP}web/module/out/mvtgate.wasm`));
}

/**
 * @param {string} name
 * @returns {Uint8Array}
 */
export function sample(name) {
  return new Uint8Array(readFileSync(`${TOP}tiles/${name}.mvt`));
}

/**
 * @param {string} name
 * @returns {{polygon: string[], feature: string[]}} the lines of `mvtgate check` that are accepted by each profile
 */
function linesOf(name) {
  const lines = (/** @type {string} */ ending) => readFileSync(`${TOP}tiles/expected/${name}${ending}`, 'utf8').trimEnd().split('\n');
  const polygon = lines('.check');
  return { polygon, feature: existsSync(`${TOP}tiles/expected/${name}.check_feature`) ? lines('.check_feature') : polygon };
}

/** Samples of one layer with one fault, which is the only one that their features have. The first is valid by `polygon`. */
const FAULTY_LAYERS = [
  'polygon_on_polygon',
  'version_one', 'odd_tags', 'no_such_key', 'no_such_value', 'key_twice', 'closed_line', 'line_to_first', 'closed_twice', 'half_a_point',
  'step_across_plane', 'above_greatest_coordinate', 'no_step', 'closed_by_hand', 'ring_without_area', 'begins_with_hole', 'crossing_edges',
  'second_polygon', 'hole_outside', 'hole_in_hole',
];

/**
 * These layers, each behind a valid one, as one tile in which all have different names.
 *
 * @returns {{tile: Uint8Array, faults: {[profile in 'polygon' | 'feature']: any[]}}} the members of the faults that it has, in order:
 *   those of layers come before those of features
 */
export function faultyLayers() {
  const parts = FAULTY_LAYERS.flatMap((name) => ['point', name]).map((name, at) => ({ bytes: renamed(sample(name), at), lines: linesOf(name) }));
  const faultsBy = (/** @type {'polygon' | 'feature'} */ profile) => parts
    .map(({ lines }, layer) => ({ line: lines[profile][0], layer }))
    .filter(({ line }) => line !== YES).map(({ line, layer }) => ({ ...JSON.parse(line), layer }))
    .sort((one, other) => Number('feature' in one) - Number('feature' in other));
  const tile = new Uint8Array(parts.flatMap(({ bytes }) => [...bytes]));
  return { tile, faults: { polygon: faultsBy('polygon'), feature: faultsBy('feature') } };
}

/**
 * @param {Uint8Array} tile of one layer, whose second field is its name, of one letter
 * @param {number} at
 * @returns {Uint8Array} the same with another letter
 */
function renamed(tile, at) {
  const NAME = 6;
  return tile.map((byte, index) => (index === NAME ? 0x21 + at : byte));
}

/** All of them that have an expected line of `check`. */
export const SAMPLES = readdirSync(`${TOP}tiles/expected`)
  .filter((file) => file.endsWith('.check'))
  .map((file) => file.slice(0, -'.check'.length))
  .map((name) => ({ name, tile: sample(name), lines: linesOf(name) }));
