// Workers that can't be made, that end, or that answer too late: stand-ins, which need no gate.
import assert from 'node:assert/strict';
import { spawnSync } from 'node:child_process';
import { writeFileSync } from 'node:fs';
import { test } from 'node:test';
import { setImmediate as turn } from 'node:timers/promises';
import { Pool } from '../../src/gate/pool.js';
import { RemoteGate, Stopped } from '../../src/gate/remote.js';
import { freshFolder } from '../package/installed.js';
import { TOP } from '../samples.js';

const EMPTY_MODULE = new WebAssembly.Module(Uint8Array.of(0, 0x61, 0x73, 0x6d, 1, 0, 0, 0));
const MUCH = 200 * 1024 * 1024; // bytes of memory after which a worker is replaced

/** Workers that find each tile valid, as soon as they are let. */
class Workers {
  /** @type {any[]} */
  made = [];
  isRefused = false; // whether the system has no further one
  isHeld = false; // whether they answer no call
  calls = 0;
  memory = 65536;

  newWorker = () => {
    if (this.isRefused) throw new Error('no further worker');
    const worker = {
      onmessage: (/** @type {any} */ _) => {}, onerror: (/** @type {any} */ _) => {}, isTerminated: false,
      postMessage: (/** @type {any} */ question) => this.#take(worker, question),
      terminate: () => { worker.isTerminated = true; },
    };
    this.made.push(worker);
    return worker;
  };

  /** @param {any} worker @param {any} question */
  #take(worker, { id, call }) {
    const isLoad = call === 'load';
    if (!isLoad) this.calls += 1;
    const data = { id, answer: isLoad ? '0.1.0' : null, milliseconds: 0, memory: isLoad ? 65536 : this.memory };
    if (isLoad || !this.isHeld) setImmediate(() => worker.isTerminated || worker.onmessage({ data }));
  }
}

/** What becomes of a promise in a few turns. @param {Promise<any>} promise */
async function fateOf(promise) {
  let fate = 'waits';
  promise.then((it) => { fate = `answers ${it}`; }, (error) => { fate = error.message; });
  for (let count = 0; count < 20; count += 1) await turn();
  return fate;
}

const TILE = Uint8Array.of(1, 2, 3);

test('a call for which no worker can be made ends, and is not made later', async () => {
  const workers = new Workers(), pool = new Pool(EMPTY_MODULE, workers.newWorker, 2);
  workers.isRefused = true;
  assert.equal(await fateOf(pool.check(TILE)), 'no further worker');
  workers.isRefused = false;
  assert.equal(await fateOf(pool.check(TILE)), 'answers null');
  assert.equal(workers.calls, 1);
});

test('where a further worker is refused, calls wait for those there are', async () => {
  const workers = new Workers(), pool = new Pool(EMPTY_MODULE, workers.newWorker, 4);
  const first = pool.check(TILE);
  workers.isRefused = true;
  assert.deepEqual(await Promise.all([first, pool.check(TILE), pool.check(TILE)].map(fateOf)), Array(3).fill('answers null'));
  assert.equal(workers.made.length, 1);
});

test('a call that is ended while no other worker can be made', async () => {
  const workers = new Workers(), pool = new Pool(EMPTY_MODULE, workers.newWorker, 1), controller = new AbortController();
  workers.isHeld = true;
  const call = pool.check(TILE, { signal: controller.signal });
  await turn();
  workers.isRefused = true;
  controller.abort(new Error('enough'));
  assert.equal(await fateOf(call), 'enough');
  assert.equal(await fateOf(pool.check(TILE)), 'no further worker');
  [workers.isRefused, workers.isHeld] = [false, false];
  assert.equal(await fateOf(pool.check(TILE)), 'answers null');
});

test('a worker that failed, and one in its place that can be made only later', async () => {
  const workers = new Workers(), pool = new Pool(EMPTY_MODULE, workers.newWorker, 1);
  await pool.check(TILE);
  workers.made[0].onerror({ message: 'it broke' });
  workers.isRefused = true;
  assert.equal(await fateOf(pool.check(TILE)), 'no further worker');
  workers.isRefused = false;
  assert.equal(await fateOf(pool.check(TILE)), 'answers null');
});

test('a worker with much memory that no other one can replace yet', async () => {
  const workers = new Workers(), pool = new Pool(EMPTY_MODULE, workers.newWorker, 1);
  await pool.check(TILE);
  [workers.isRefused, workers.memory] = [true, MUCH];
  assert.equal(await fateOf(pool.check(TILE)), 'answers null');
  assert.equal(await fateOf(pool.check(TILE)), 'no further worker');
  [workers.isRefused, workers.memory] = [false, 65536];
  assert.equal(await fateOf(pool.check(TILE)), 'answers null');
});

test('a reply that comes when all is over makes no worker, and neither does a later call', async () => {
  const workers = new Workers(), gate = new RemoteGate(EMPTY_MODULE, workers.newWorker);
  await gate.ready;
  const reply = { data: { id: 1, answer: null, milliseconds: 0, memory: MUCH } };
  const call = gate.check(TILE, 'polygon');
  gate.stop();
  await assert.rejects(call, Stopped);
  await gate.ready;
  workers.made[0].onmessage(reply);
  assert.equal(workers.made.length, 2);
  gate.close();
  workers.made[1].onmessage(reply);
  assert.equal(workers.made.length, 2);
  await assert.rejects(gate.check(TILE, 'polygon'), Stopped);
});

test('a worker of Node that ends by itself', () => {
  const folder = freshFolder();
  writeFileSync(`${folder}/ends.cjs`, `const { isMainThread } = require('node:worker_threads');
    if (!isMainThread) setTimeout(() => process.exit(0), 200);`);
  const script = `
    import { Pool } from '${TOP}bindings/js/src/gate/pool.js';
    import { NodeWorker } from '${TOP}bindings/js/src/gate/node_worker_port.js';
    class Deaf extends NodeWorker {
      postMessage(message, moved) {
        if (message.call === 'load') super.postMessage(message, moved);
      }
    }
    const pool = new Pool(new WebAssembly.Module(Uint8Array.of(0, 0x61, 0x73, 0x6d, 1, 0, 0, 0)), () => new Deaf(), 1);
    const alive = setTimeout(() => console.log('it waits'), 60000);
    await pool.check(Uint8Array.of(1)).catch((error) => console.log(error.message));
    clearTimeout(alive);`;
  const env = { ...process.env, NODE_OPTIONS: `--require=${folder}/ends.cjs` };
  const { status, stdout } = spawnSync(process.execPath, ['--input-type=module', '-e', script], { encoding: 'utf8', timeout: 30000, env });
  assert.deepEqual([status, stdout], [0, 'the worker ended\n']);
});
