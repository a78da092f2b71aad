// The gate in workers of Node.
import assert from 'node:assert/strict';
import { spawnSync } from 'node:child_process';
import { test } from 'node:test';
import { NodeWorker } from '../../src/gate/node_worker_port.js';
import { OutOfMemory, Stopped, load, loadPool } from '../../src/node.js';
import { SAMPLES, TOP, moduleBytes, sample } from '../samples.js';
import { feature, tileOf } from '../wire.js';
import { withGreatestMemory } from './small_memory.js';

const gate = await load();

/** @param {number} number */
const zigzag = (number) => (number < 0 ? -2 * number - 1 : 2 * number);

/** A tile whose first fault by `feature` takes minutes: long thin triangles whose bounds all overlap, of which two meet. */
function longTile() {
  const count = 60000, far = 4 * count;
  const slivers = Array.from({ length: count }, (_, at) => {
    const back = at === 0 ? 0 : at === count / 2 + 1 ? 10 - far : 4 - far; // (the one before may have ended further to the left)
    const tip = at === count / 2 ? far - 7 : far - 1;
    return [9, zigzag(back), zigzag(at === 0 ? 0 : -far), 18, 2, 0, zigzag(tip), zigzag(far), 15];
  });
  return tileOf([feature(3, slivers.flat())]);
}

test('each call answers as in this thread', async (context) => {
  const pool = await loadPool({ size: 3 });
  context.after(() => pool.close());
  await Promise.all(SAMPLES.map(async ({ tile }) => {
    const profile = 'feature';
    const fault = gate.check(tile, { profile });
    assert.deepEqual(await pool.check(tile, { profile }), fault);
    assert.deepEqual(await pool.faults(tile, { profile, limit: 5 }), gate.faults(tile, { profile, limit: 5 }));
    assert.deepEqual(await pool.mend(tile, { profile, drop: true }), gate.mend(tile, { profile, drop: true }));
    assert.deepEqual(await pool.dump(tile), gate.dump(tile));
    assert.deepEqual(await pool.advise(tile), gate.advise(tile));
    if (fault) assert.equal(await pool.confirm(tile, fault, { profile }), true);
    if (fault) assert.deepEqual(pool.explain(fault, tile), gate.explain(fault, tile));
  }));
});

test('no more workers than its size, and each as it is needed', async (context) => {
  let made = 0;
  const newWorker = () => {
    made += 1;
    return new NodeWorker();
  };
  const pool = await loadPool({ size: 2, newWorker });
  context.after(() => pool.close());
  assert.equal(made, 0);
  await pool.check(sample('point'));
  await pool.check(sample('point'));
  assert.equal(made, 1);
  await Promise.all(Array.from({ length: 20 }, () => pool.check(sample('point'))));
  assert.equal(made, 2);
});

test('a tile is left as it is, unless it is handed over', async (context) => {
  const pool = await loadPool({ size: 1 });
  context.after(() => pool.close());
  const tile = new Uint8Array(sample('crossing_edges')), inside = new Uint8Array([7, ...tile, 7]).subarray(1, 1 + tile.length);
  assert.equal((await pool.check(tile))?.code, 504);
  assert.equal((await pool.check(inside, { transfer: true }))?.code, 504);
  assert.deepEqual(inside, tile);
  assert.equal((await pool.check(tile, { transfer: true }))?.code, 504);
  assert.equal(tile.length, 0);
});

test('a tile that was handed over before is refused, and the next call answered', async (context) => {
  const pool = await loadPool({ size: 1 });
  context.after(() => pool.close());
  const tile = new Uint8Array(sample('crossing_edges'));
  const [first, second] = await Promise.allSettled([pool.check(tile, { transfer: true }), pool.check(tile, { transfer: true })]);
  assert.equal(first.status === 'fulfilled' && first.value?.code, 504);
  assert.ok(second.status === 'rejected' && second.reason instanceof TypeError);
  await assert.rejects(pool.check(tile, { profile: 'feature', transfer: true }), TypeError);
  assert.equal(await pool.check(new Uint8Array(0), { transfer: true }), null);
  assert.equal((await pool.check(sample('crossing_edges')))?.code, 504);
});

test('a call that is ended, and the ones that wait behind it', async (context) => {
  const pool = await loadPool({ size: 1 });
  context.after(() => pool.close());
  const controller = new AbortController(), waiting = new AbortController();
  const reason = new Error('enough');
  const long = pool.check(longTile(), { profile: 'feature', signal: controller.signal });
  const dropped = pool.check(sample('point'), { signal: waiting.signal });
  const next = pool.check(sample('crossing_edges'));
  waiting.abort(reason);
  await assert.rejects(dropped, reason);
  controller.abort(reason);
  await assert.rejects(long, reason);
  assert.equal((await next)?.code, 504);
  await assert.rejects(pool.check(sample('point'), { signal: AbortSignal.abort(reason) }), reason);
  await assert.rejects(pool.check(longTile(), { profile: 'feature', signal: AbortSignal.timeout(200) }), { name: 'TimeoutError' });
  assert.equal(await pool.check(sample('point')), null);
});

test('a pool that is closed', async () => {
  const pool = await loadPool({ size: 1 });
  const calls = [pool.check(longTile(), { profile: 'feature' }), pool.check(sample('point'))];
  setImmediate(() => pool.close());
  for (const it of calls) await assert.rejects(it, Stopped);
  await assert.rejects(pool.check(sample('point')), Stopped);
});

test('errors come as they are, and the next call is answered', async (context) => {
  const pool = await loadPool({ size: 1, source: withGreatestMemory(moduleBytes(), 64) });
  context.after(() => pool.close());
  await assert.rejects(pool.check(new Uint8Array(64 * 65536)), OutOfMemory);
  await assert.rejects(pool.check(/** @type {any} */ ('tile')), TypeError);
  await assert.rejects(pool.check(sample('point'), { profile: /** @type {any} */ ('neither') }), TypeError);
  await assert.rejects(pool.confirm(sample('point'), 'no'), TypeError);
  assert.equal(await pool.check(sample('point')), null);
  for (const size of [0, -1, 1.5, NaN]) await assert.rejects(loadPool({ size }), TypeError);
});

test('a worker that fails is replaced', async (context) => {
  /** @type {NodeWorker[]} */
  const workers = [];
  const newWorker = () => {
    workers.push(new NodeWorker());
    return workers[workers.length - 1];
  };
  const pool = await loadPool({ size: 1, newWorker });
  context.after(() => pool.close());
  assert.equal(await pool.check(sample('point')), null);
  const call = pool.check(longTile(), { profile: 'feature' });
  await new Promise((resolve) => setImmediate(resolve));
  workers[0].onerror?.({ message: 'it broke' });
  await assert.rejects(call, /it broke/);
  assert.equal((await pool.check(sample('crossing_edges')))?.code, 504);
  assert.equal(workers.length, 2);
});

test('a process with a pool that has nothing to do ends', () => {
  const script = `
    import { loadPool } from '${TOP}bindings/js/src/node.js';
    const pool = await loadPool({ size: 2 });
    console.log(await pool.check(new Uint8Array()));`;
  const { status, stdout } = spawnSync(process.execPath, ['--input-type=module', '-e', script], { encoding: 'utf8', timeout: 120000 });
  assert.deepEqual([status, stdout], [0, 'null\n']);
});
