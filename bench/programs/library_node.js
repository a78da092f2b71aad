/**
 * Times `check` of the package for JavaScript in Node, for bench/library: library_node.js times ROUNDS FILE..: in each round, tile by
 * tile, a batch of calls. A line for each tile of a round: its number in the list, and the nanoseconds of processor time that a call
 * takes.
 */
import { readFileSync } from 'node:fs';
import { load } from '../../bindings/js/src/node.js';

const BATCH_MICROSECONDS = 2000;
const MOST_CALLS = 100_000;
const WARMING_CALLS = 300;

const [, rounds, ...files] = process.argv.slice(2);
const tiles = files.map((it) => readFileSync(it));
const gate = await load();

/**
 * @param {Buffer} tile
 * @param {number} calls
 * @returns {number} the microseconds of a call
 */
function timeOf(tile, calls) {
  const before = process.cpuUsage();
  for (let at = 0; at < calls; at++) gate.check(tile);
  const { user, system } = process.cpuUsage(before);
  return (user + system) / calls;
}

// (so that all is compiled before)
for (const tile of tiles) timeOf(tile, WARMING_CALLS);
for (let round = 0; round < Number(rounds); round++) {
  for (const [number, tile] of tiles.entries()) {
    const calls = Math.min(MOST_CALLS, Math.max(1, Math.trunc(BATCH_MICROSECONDS / Math.max(timeOf(tile, 3), 0.01))));
    console.log(number, (1000 * timeOf(tile, calls)).toFixed(1));
  }
}
