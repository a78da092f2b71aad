// Files that are checked one after another, over a gate that answers when the test says so.
import assert from 'node:assert/strict';
import { mock, test } from 'node:test';
import { setImmediate } from 'node:timers/promises';
import { deflateSync, gzipSync } from 'node:zlib';
import { Checks, newEntry } from '../../site/app/files/checks.js';
import { OutOfMemory, Stopped } from '../../../bindings/js/src/gate/errors.js';

const FAULT = '{"code":201,"layer":0}';
const QUICK_FAULT = '{"code":201,"layer":1}';

/** Bytes for which the gate has a fault begin with this one, and those for which it has no memory with the next. */
const FAULTY = 1, GREEDY = 2;

/** Bytes whose second one is this are of another format. */
const PICTURE = 8, FORMAT = { name: 'picture', title: 'Picture', sentence: 'It is a picture.', remedy: 'hand over a tile.' };

/** The checker doesn't confirm the fault of bytes whose second one is this. */
const DOUBTED = 9;

class Gate {
  /** @type {{profile: string, fault: string, answer: () => void, reject: (error: Error) => void}[]} */
  waiting = [];
  stops = 0;

  /** @param {Uint8Array} tile @param {string} profile */
  check(tile, profile) {
    return this.#judge(tile, profile, FAULT);
  }

  /** @param {Uint8Array} tile @param {string} profile */
  checkQuickly(tile, profile) {
    return this.#judge(tile, profile, QUICK_FAULT);
  }

  /** @param {Uint8Array} tile @param {string} profile @param {string} fault */
  #judge(tile, profile, fault) {
    return new Promise((resolve, reject) => {
      const answer = () => (tile[0] === GREEDY ? reject(new OutOfMemory())
        : resolve({ fault: tile[0] === FAULTY ? fault : null, milliseconds: 2, memory: 65536 }));
      this.waiting.push({ profile, fault, answer, reject });
    });
  }

  /** @param {Uint8Array} tile */
  async confirm(tile) {
    return tile[1] === DOUBTED ? 'not confirmed' : 'confirmed';
  }

  stop() {
    this.stops += 1;
    for (const { reject } of this.waiting.splice(0)) reject(new Stopped());
  }

  /** Answers the check that waits, as soon as there is one. */
  async answer() {
    while (!this.waiting.length) await setImmediate();
    this.waiting.splice(0, 1)[0].answer();
    for (let turn = 0; turn < 5; turn += 1) await setImmediate();
  }
}

/** @param {...number[]} files their bytes */
function begin(...files) {
  const gate = new Gate();
  const checks = new Checks(/** @type {any} */ (gate), () => undefined, (_, tile) => (tile[1] === PICTURE ? FORMAT : null));
  const entries = files.map((bytes, at) => newEntry(`tile ${at}`, new Blob([Uint8Array.from(bytes)])));
  checks.add(entries);
  const states = () => entries.map(({ state }) => state);
  return { gate, checks, entries, states };
}

test('files are checked in order', async () => {
  const { gate, checks, entries, states } = begin([0], [FAULTY, 0], [GREEDY]);
  assert.deepEqual(states(), ['checking', 'waiting', 'waiting']);
  assert.ok(checks.isBusy);
  await gate.answer();
  assert.deepEqual(states(), ['valid', 'checking', 'waiting']);
  await gate.answer();
  await gate.answer();
  assert.deepEqual(states(), ['valid', 'fault', 'unreadable']);
  assert.ok(!checks.isBusy);
  const { said, fault, isConfirmed, size, milliseconds, memory } = entries[1];
  assert.deepEqual({ said, fault, isConfirmed, size, milliseconds, memory },
    { said: FAULT, fault: { code: 201, layer: 0 }, isConfirmed: true, size: 2, milliseconds: 2, memory: 65536 });
  assert.equal(entries[2].reason, 'the browser refused the memory that the check needs');
});

test('a fault that the checker does not confirm is marked so', async () => {
  const { gate, entries, states } = begin([FAULTY, DOUBTED], [FAULTY]);
  await gate.answer();
  await gate.answer();
  assert.deepEqual(states(), ['fault', 'fault']);
  assert.deepEqual(entries.map(({ isConfirmed }) => isConfirmed), [false, true]);
});

test('a file with a fault has the format of its bytes, and a valid one has none', async () => {
  const { gate, entries } = begin([FAULTY, PICTURE], [FAULTY, 0], [0, PICTURE]);
  for (let answers = 0; answers < 3; answers += 1) await gate.answer();
  assert.deepEqual(entries.map(({ format }) => format), [FORMAT, null, null]);
});

test('a file that is packed is unpacked, and a damaged one has a reason', async () => {
  const packed = [...gzipSync(Uint8Array.from([FAULTY, 5, 5]))];
  const { gate, checks, entries, states } = begin(packed, packed.slice(0, -3));
  await gate.answer();
  while (checks.isBusy) await setImmediate();
  assert.deepEqual(states(), ['fault', 'unreadable']);
  assert.ok(entries[0].isPacked);
  assert.equal(entries[0].size, 3);
  assert.equal(entries[1].reason, 'the gzip file is damaged');
});

test('a file that is packed by zlib is unpacked', async () => {
  const { gate, entries, states } = begin([...deflateSync(Uint8Array.from([FAULTY, 5, 5]))]);
  await gate.answer();
  assert.deepEqual(states(), ['fault']);
  assert.ok(entries[0].isPacked);
  assert.equal(entries[0].size, 3);
});

test('a stop ends the check that goes on and those that wait, and a next check works', async () => {
  const { gate, checks, entries, states } = begin([0], [FAULTY], [0]);
  await gate.answer();
  checks.stop();
  assert.deepEqual(states(), ['valid', 'stopped', 'stopped']);
  assert.equal(gate.stops, 1);
  await setImmediate();
  checks.again(entries[1]);
  await gate.answer();
  assert.deepEqual(states(), ['valid', 'fault', 'stopped']);
});

test('a stop before the file was read keeps the check from beginning', async () => {
  const { gate, checks, states } = begin([0]);
  checks.stop();
  for (let turn = 0; turn < 20; turn += 1) await setImmediate();
  assert.deepEqual(states(), ['stopped']);
  assert.equal(gate.waiting.length, 0);
});

test('a file that could not be read is read anew', async () => {
  const { gate, checks, entries, states } = begin();
  let isThere = false;
  const file = /** @type {any} */ ({ size: 1, arrayBuffer: async () => {
    if (!isThere) throw new Error('it is away');
    return Uint8Array.of(FAULTY).buffer;
  } });
  entries.push(newEntry('a', file));
  checks.add(entries);
  while (checks.isBusy) await setImmediate();
  assert.deepEqual([states(), entries[0].reason], [['unreadable'], 'the browser could not read the file']);
  isThere = true;
  checks.again(entries[0]);
  await gate.answer();
  assert.deepEqual([states(), entries[0].reason], [['fault'], '']);
});

test('another profile checks all files again', async () => {
  const { gate, checks, states } = begin([0], [FAULTY]);
  await gate.answer();
  while (!gate.waiting.length) await setImmediate();
  checks.setProfile('feature');
  assert.equal(gate.stops, 1);
  for (let turn = 0; turn < 10; turn += 1) await setImmediate();
  assert.deepEqual(states(), ['checking', 'waiting']);
  assert.deepEqual(gate.waiting.map(({ profile }) => profile), ['feature']);
  checks.setProfile('feature');
  assert.equal(gate.stops, 1);
  for (let answers = 0; answers < 3; answers += 1) await gate.answer(); // (a fault is first looked for quickly)
  assert.deepEqual(states(), ['valid', 'fault']);
});

/** @param {number} first byte of a file that is checked by `feature`, of which the quick answer has come */
async function quicklyChecked(first) {
  const { gate, checks } = begin();
  checks.setProfile('feature');
  const entry = newEntry('tile', new Blob([Uint8Array.of(first)]));
  checks.add([entry]);
  while (!gate.waiting.length) await setImmediate();
  assert.equal(gate.waiting[0].fault, QUICK_FAULT);
  await gate.answer();
  return { gate, checks, entry };
}

test('by feature a tile that is valid by the quick answer needs no other', async () => {
  const { gate, entry } = await quicklyChecked(0);
  assert.equal(entry.state, 'valid');
  assert.equal(gate.waiting.length, 0);
});

test('by feature the first fault is the answer where it is found', async () => {
  const { gate, entry } = await quicklyChecked(FAULTY);
  assert.equal(entry.state, 'checking');
  await gate.answer();
  assert.deepEqual([entry.state, entry.said, entry.isLeast, gate.stops], ['fault', FAULT, true, 0]);
});

test('by feature the quick fault is the answer where the first one takes too long', async () => {
  mock.timers.enable({ apis: ['setTimeout'] });
  try {
    const { gate, entry } = await quicklyChecked(FAULTY);
    mock.timers.tick(10000);
    assert.deepEqual([entry.state, gate.stops], ['checking', 0]);
    mock.timers.tick(6); // (three times what the quick answer took)
    for (let turn = 0; turn < 5; turn += 1) await setImmediate();
    assert.deepEqual([entry.state, entry.said, entry.isLeast, entry.isConfirmed, gate.stops], ['fault', QUICK_FAULT, false, true, 1]);
  } finally {
    mock.timers.reset();
  }
});

test('a stop ends the search for the first fault', async () => {
  mock.timers.enable({ apis: ['setTimeout'] });
  try {
    const { gate, checks, entry } = await quicklyChecked(FAULTY);
    checks.stop();
    for (let turn = 0; turn < 5; turn += 1) await setImmediate();
    mock.timers.tick(20000);
    assert.deepEqual([entry.state, gate.stops], ['stopped', 1]);
  } finally {
    mock.timers.reset();
  }
});

test('files that are taken away are checked no more', async () => {
  const { gate, checks } = begin([0], [0]);
  checks.clear();
  assert.deepEqual(checks.entries, []);
  for (let turn = 0; turn < 20; turn += 1) await setImmediate();
  assert.equal(gate.waiting.length, 0);
});

test('the tile of a file can be asked for after its check', async () => {
  const { gate, checks, entries } = begin([7, 8], [9]);
  await gate.answer();
  await gate.answer();
  assert.deepEqual(await checks.tileOf(entries[0]), Uint8Array.from([7, 8]));
  assert.deepEqual(await checks.tileOf(entries[1]), Uint8Array.from([9]));
});

test('files are counted by their states', async () => {
  const { gate, checks } = begin([0], [FAULTY], [GREEDY], [0]);
  assert.deepEqual(checks.counts, { waiting: 3, checking: 1, valid: 0, fault: 0, unreadable: 0, stopped: 0 });
  for (let answers = 0; answers < 3; answers += 1) await gate.answer();
  checks.stop();
  assert.deepEqual(checks.counts, { waiting: 0, checking: 0, valid: 1, fault: 1, unreadable: 1, stopped: 1 });
  checks.again(checks.entries[3]);
  await gate.answer();
  assert.deepEqual(checks.counts, { waiting: 0, checking: 0, valid: 2, fault: 1, unreadable: 1, stopped: 0 });
  checks.clear();
  assert.deepEqual(checks.counts, { waiting: 0, checking: 0, valid: 0, fault: 0, unreadable: 0, stopped: 0 });
});

// (with a look at all files for each of them this would take many minutes)
test('each of very many files costs the same', { timeout: 120000 }, async () => {
  const gate = { check: async () => ({ fault: null, milliseconds: 1, memory: 65536 }) };
  const checks = new Checks(/** @type {any} */ (gate), () => checks.isBusy);
  const file = new Blob([Uint8Array.of(0)]);
  checks.add(Array.from({ length: 200000 }, (_, at) => newEntry(`tile ${at}`, file)));
  while (checks.isBusy) await setImmediate();
  assert.equal(checks.counts.valid, 200000);
});
