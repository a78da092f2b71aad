import assert from 'node:assert/strict';
import { test } from 'node:test';
import { OutOfMemory, RemoteGate, Stopped } from '../../src/gate/remote.js';
import { server } from '../../src/gate/serve.js';
import { moduleBytes, sample } from '../samples.js';
import { withGreatestMemory } from './small_memory.js';

/** A worker in this thread: it copies messages as a real one does, and answers later. */
class NearWorker {
  isTerminated = false;
  /** @type {(event: {data: any}) => void} */
  onmessage = () => {};
  /** @type {(event: {message: string}) => void} */
  onerror = () => {};
  #serve = server((reply) => this.isTerminated || this.onmessage({ data: structuredClone(reply) }));

  /**
   * @param {any} message
   * @param {Transferable[]} transfer
   */
  postMessage(message, transfer) {
    const data = structuredClone(message, { transfer });
    setImmediate(() => this.isTerminated || this.#serve(data));
  }

  terminate() {
    this.isTerminated = true;
  }
}

/**
 * @param {Uint8Array} bytes
 * @returns {{gate: RemoteGate, workers: NearWorker[]}}
 */
function begin(bytes = moduleBytes()) {
  /** @type {NearWorker[]} */
  const workers = [];
  const newWorker = () => {
    workers.push(new NearWorker());
    return /** @type {any} */ (workers[workers.length - 1]);
  };
  return { gate: new RemoteGate(bytes, newWorker), workers };
}

test('all calls answer', async () => {
  const { gate } = begin();
  assert.match(await gate.ready, /^\d+\.\d+\.\d+$/);
  const tile = sample('crossing_edges');
  const { fault, milliseconds, memory } = await gate.check(tile, 'polygon');
  assert.ok(fault?.includes('"code":504') && milliseconds > 0 && memory > 65536);
  assert.equal(await gate.confirm(tile, fault, 'polygon'), 'confirmed');
  assert.equal(await gate.confirm(tile, '{"code":201,"layer":0}', 'polygon'), 'not confirmed');
  assert.equal((await gate.checkQuickly(tile, 'feature')).fault, fault);
  assert.deepEqual(await gate.faultsQuickly(tile, 'feature'), { count: 1, texts: [fault] });
  assert.equal((await gate.dump(tile)).fault, null);
  assert.equal((await gate.advise(tile)).advice, '{"advice":[]}');
});

test('a tile is left as it is, also one that is a part of other bytes', async () => {
  const { gate } = begin();
  const point = sample('point');
  const part = new Uint8Array([7, ...point, 7]).subarray(1, 1 + point.length);
  assert.equal((await gate.check(part, 'polygon')).fault, null);
  assert.deepEqual(part, point);
});

test('calls that wait are stopped, and later ones answered by a new worker', async () => {
  const { gate, workers } = begin();
  const ready = gate.ready;
  const calls = [gate.check(sample('point'), 'polygon'), gate.dump(sample('point'))];
  gate.stop();
  for (const it of [ready, ...calls]) await assert.rejects(it, Stopped);
  assert.deepEqual(workers.map((it) => it.isTerminated), [true, false]);
  assert.equal((await gate.check(sample('point'), 'polygon')).fault, null);
  assert.match(await gate.ready, /^\d/);
});

test('refused memory comes as its own error', async () => {
  const { gate } = begin(withGreatestMemory(moduleBytes(), 20));
  await assert.rejects(gate.check(new Uint8Array(20 * 65536), 'polygon'), OutOfMemory);
  assert.equal((await gate.check(sample('point'), 'polygon')).fault, null);
});

test('a worker that had much memory is replaced as soon as no call waits', async () => {
  const { gate, workers } = begin();
  // (its first byte is a fault)
  const large = new Uint8Array(129 * 1024 * 1024);
  const [one, other] = await Promise.all([gate.check(large, 'polygon'), gate.check(sample('point'), 'polygon')]);
  assert.ok(one.fault?.includes('"code":103') && one.memory > large.length && other.fault === null);
  assert.equal(workers.length, 1);
  await gate.check(large, 'polygon');
  assert.deepEqual(workers.map((it) => it.isTerminated), [true, false]);
  assert.equal((await gate.check(sample('point'), 'polygon')).fault, null);
});

test('a module that is none, and a worker that fails', async () => {
  await assert.rejects(begin(new Uint8Array(8)).gate.ready, /WebAssembly/);
  const { gate, workers } = begin();
  const call = gate.check(sample('point'), 'polygon');
  workers[0].onerror({ message: 'it broke' });
  await assert.rejects(call, /it broke/);
  await assert.rejects(gate.ready, /it broke/);
});
