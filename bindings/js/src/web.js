/** mvtgate for browsers, and for bundlers. Node has node.js in its place. */
import { moduleOf } from './gate/source.js';
import { Gate } from './gate/gate.js';
import { Pool } from './gate/pool.js';
import { OutOfMemory, Stopped } from './gate/errors.js';
import { explain } from './words/explain.js';

export { Gate, OutOfMemory, Pool, Stopped, explain };

const fetched = () => fetch(new URL('../mvtgate.wasm', import.meta.url));
const moduleWorker = () => new Worker(new URL('./gate/worker.js', import.meta.url), { type: 'module' });

/**
 * @param {import('./types.js').Source} [source]
 * @returns {Promise<Gate>}
 */
export async function load(source = fetched()) {
  return new Gate(await moduleOf(source));
}

/**
 * @param {import('./types.js').PoolOptions} [options]
 * @returns {Promise<Pool>}
 */
export async function loadPool(options = {}) {
  const { size = navigator.hardwareConcurrency || 1, source = fetched(), newWorker = moduleWorker } = options;
  return new Pool(await moduleOf(source), newWorker, size);
}
