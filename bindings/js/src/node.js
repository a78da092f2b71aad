/** mvtgate for Node. */
import { readFile } from 'node:fs/promises';
import os from 'node:os';
import { OutOfMemory, Stopped } from './gate/errors.js';
import { Gate } from './gate/gate.js';
import { NodeWorker } from './gate/node_worker_port.js';
import { Pool } from './gate/pool.js';
import { moduleOf } from './gate/source.js';
import { explain } from './words/explain.js';

export { Gate, OutOfMemory, Pool, Stopped, explain };

const read = () => readFile(new URL('../mvtgate.wasm', import.meta.url));
const processors = () => os.availableParallelism?.() ?? os.cpus().length;

/**
 * @param {import('./types.js').Source} [source]
 * @returns {Promise<Gate>}
 */
export async function load(source = read()) {
  return new Gate(await moduleOf(source));
}

/**
 * @param {import('./types.js').PoolOptions} [options]
 * @returns {Promise<Pool>}
 */
export async function loadPool(options = {}) {
  const { size = processors(), source = read(), newWorker = () => new NodeWorker() } = options;
  return new Pool(await moduleOf(source), newWorker, size);
}
