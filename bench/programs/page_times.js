/** Times the page's module, for bench/programs/page.py: in Node, and as one script in a browser. */
import { Calls } from '../../bindings/js/src/gate/calls.js';

/** In milliseconds: calls are counted together until they take as long, since a browser's clock is coarse. */
const BATCH = 5;

/**
 * @param {string} base64
 * @returns {Uint8Array}
 */
const bytesOf = (base64) => Uint8Array.from(atob(base64), (letter) => letter.charCodeAt(0));

/**
 * @param {() => void} work
 * @param {number} count
 * @returns {number} the milliseconds of one of so many calls
 */
function timeOf(work, count) {
  const began = performance.now();
  for (let at = 0; at < count; at++) work();
  return (performance.now() - began) / count;
}

/**
 * @param {string} module in base64
 * @param {string} tile in base64
 * @param {number} rounds
 * @returns {{compile: number, first: number, later: number[], memory: number}} the milliseconds in which the module is compiled,
 *   those of its first check of the tile, and of one check in each round; the bytes of memory that a check takes
 */
export function times(module, tile, rounds) {
  const [bytes, given] = [bytesOf(module), bytesOf(tile)];
  /** @type {Calls} */
  let gate;
  const compile = timeOf(() => {
    gate = new Calls(new WebAssembly.Module(bytes));
  }, 1);
  const check = () => {
    gate.check(given, 'polygon');
  };
  const first = timeOf(check, 1);
  const count = Math.max(1, Math.ceil(BATCH / Math.max(timeOf(check, 3), 0.001)));
  const later = Array.from({ length: rounds }, () => timeOf(check, count));
  return { compile, first, later, memory: gate.memory };
}
