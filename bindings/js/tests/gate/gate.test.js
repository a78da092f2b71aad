// The package as its user has it, in this thread.
import assert from 'node:assert/strict';
import { test } from 'node:test';
import { Gate, OutOfMemory, explain, load } from '../../src/node.js';
import { SAMPLES, TOP, YES, faultyLayers, moduleBytes, sample } from '../samples.js';
import { feature, tileOf } from '../wire.js';
import { withGreatestMemory } from './small_memory.js';
import { readFileSync } from 'node:fs';

/** @typedef {import('../../src/types.js').Profile} Profile */

const gate = await load();
/** @type {Profile[]} */
const PROFILES = ['polygon', 'feature'];
const POLYGONS_FAULTS = new Set([402, 406, 501, 502, 503, 504, 505, 506, 507]);

for (const { name, tile, lines } of SAMPLES) {
  for (const profile of PROFILES) {
    test(`${name} by ${profile}`, () => {
      const fault = gate.check(tile, { profile });
      const line = fault === null ? YES : JSON.stringify(fault);
      assert.ok(lines[profile].includes(line), `${line} is none of ${lines[profile]}`);
      const all = gate.faults(tile, { profile });
      assert.deepEqual(all[0] ?? null, fault);
      for (const it of all) assert.equal(gate.confirm(tile, it, { profile }), true);
    });

    test(`${name} mended by ${profile}`, () => assertMended(tile, profile));
  }
}

/**
 * What comes out is valid, and is refused only for faults that are never mended.
 * @param {Uint8Array} tile
 * @param {Profile} profile
 */
function assertMended(tile, profile) {
  const before = Uint8Array.from(tile), faults = gate.faults(tile, { profile });
  const { outcome, tile: mended, changed, fault } = gate.mend(tile, { profile, drop: true });
  assert.deepEqual(tile, before);
  const others = faults.filter((it) => !isOfPolygons(tile, it));
  if (faults.length === 0) assert.deepEqual([outcome, mended, changed, fault], ['valid', tile, [], null]);
  else if (others.length) assert.deepEqual([outcome, mended, changed, fault], ['refused', null, [], others[0]]);
  else {
    assert.equal(outcome, 'mended');
    assert.equal(gate.check(/** @type {Uint8Array} */ (mended), { profile }), null);
    assert.deepEqual(changed.map(({ layer, feature: at }) => ({ layer, at })), faults.map((it) => 'feature' in it && { layer: it.layer, at: it.feature }));
    assert.deepEqual(gate.mend(/** @type {Uint8Array} */ (mended), { profile }), { outcome: 'valid', tile: mended, changed: [], fault: null });
  }
}

/**
 * @param {Uint8Array} tile
 * @param {import('../../src/types.js').Fault} fault
 */
function isOfPolygons(tile, fault) {
  if (!POLYGONS_FAULTS.has(fault.code) || !('feature' in fault)) return false;
  return gate.dump(tile).record?.layers[fault.layer].features[fault.feature].type === 3;
}

test('samples are mended, refused and valid', () => {
  const outcomes = new Set(SAMPLES.map(({ tile }) => gate.mend(tile).outcome));
  assert.deepEqual([...outcomes].sort(), ['mended', 'refused', 'valid']);
});

test('what mending says of a feature', () => {
  // (edges that cross at (40/9, 40/9), which is rounded to a position)
  const { changed } = gate.mend(sample('crossing_edges'));
  assert.equal(changed.length, 1);
  const [change] = changed;
  assert.ok(change.what === 'mended' && change.layer === 0 && change.feature === 0);
  assert.ok(change.area.every((it) => /^-?\d+$/.test(it)) && change.crossings >= 1);
});

test('a tile of many changes is longer than the first room for its report', () => {
  const crossing = feature(3, [9, 0, 0, 26, 20, 16, 0, 19, 19, 20, 15]);
  const tile = tileOf(Array(300).fill(crossing));
  assert.equal(gate.faults(tile).length, 300);
  const { tile: mended, changed } = gate.mend(tile);
  assert.equal(changed.length, 300);
  assert.equal(gate.check(/** @type {Uint8Array} */ (mended)), null);
  assert.equal(gate.mend(tile, { profile: 'feature' }).changed.length, 300);
});

test('features are left out only where that is asked for', () => {
  const line = feature(3, [9, 0, 0, 10, 2, 2, 15]); // (a ring of two positions has no area, and a LineTo of one is a fault)
  const tile = tileOf([line]);
  assert.equal(gate.mend(tile).outcome, 'refused');
  assert.deepEqual(gate.mend(tile, { drop: true }).changed, [{ feature: 0, layer: 0, what: 'dropped' }]);
});

test('a limit of the list', () => {
  const { tile, faults } = faultyLayers();
  assert.deepEqual(gate.faults(tile), faults.polygon);
  assert.deepEqual(gate.faults(tile, { limit: 3 }), faults.polygon.slice(0, 3));
  assert.deepEqual(gate.faults(tile, { limit: 0, quick: true }), []);
  const many = tileOf(Array(50000).fill(feature(1, [10, 2, 2])));
  assert.equal(gate.faults(many, { quick: true }).length, 50000);
});

test('what a tile holds', () => {
  const { record, fault } = gate.dump(sample('point'));
  assert.equal(fault, null);
  assert.equal(record?.layers[0].name, 'a');
  assert.deepEqual(gate.dump(sample('truncated')), { record: null, fault: { at: 0, code: 105, field: 3, scope: 'tile' } });
});

test('an id of 64 bits is whole', () => {
  const id = [0x08, ...Array(9).fill(0xff), 0x01];
  const tile = new Uint8Array([0x1a, 7 + id.length + 2 + 5, 0x78, 2, 0x0a, 1, 0x61, 0x12, id.length + 2 + 5, ...id, 0x18, 1, 0x22, 3, 9, 2, 2]);
  assert.equal(gate.check(tile), null);
  assert.equal(gate.dump(tile).record?.layers[0].features[0].id, '18446744073709551615');
});

test('advice', () => {
  assert.deepEqual(gate.advise(sample('empty')), { advice: [{ kind: 'no_layer' }], fault: null });
  assert.equal(gate.advise(sample('truncated')).fault?.code, 105);
});

test('words', () => {
  const words = JSON.parse(readFileSync(`${TOP}bindings/faults.json`, 'utf8'));
  const tile = sample('crossing_edges'), fault = gate.check(tile);
  assert.ok(fault);
  const { title, sentence, format } = gate.explain(fault, tile);
  assert.equal(title, words.faults[504].title);
  assert.ok(sentence.includes('40/9') && format === null);
  assert.equal(explain({ kind: 'no_layer' }).title, words.advice.no_layer.title);
  const gzip = Uint8Array.of(0x1f, 0x8b, 8, 0), packed = gate.check(gzip);
  assert.ok(packed && gate.explain(packed, gzip).format?.title === words.formats.gzip.title);
  for (const it of [{ code: 100 }, { kind: 'other' }, null, 'no']) assert.throws(() => explain(/** @type {any} */ (it)), TypeError);
});

test('bytes of each kind', () => {
  const tile = sample('crossing_edges'), fault = gate.check(tile);
  const buffer = tile.buffer.slice(tile.byteOffset, tile.byteOffset + tile.length);
  const shared = new SharedArrayBuffer(tile.length);
  new Uint8Array(shared).set(tile);
  const inside = new Uint8Array([7, ...tile, 7]).subarray(1, 1 + tile.length);
  for (const it of [Buffer.from(tile), buffer, shared, new DataView(buffer), inside, new Uint8Array(shared)]) assert.deepEqual(gate.check(it), fault);
  for (const it of [null, undefined, 'tile', 7, [...tile], {}]) assert.throws(() => gate.check(/** @type {any} */ (it)), TypeError);
});

test('words that no call takes', () => {
  const tile = sample('point');
  for (const profile of ['neither', 'toString', 0, null]) assert.throws(() => gate.check(tile, { profile: /** @type {any} */ (profile) }), TypeError);
  for (const limit of [-1, NaN, '3']) assert.throws(() => gate.faults(tile, { limit: /** @type {any} */ (limit) }), TypeError);
  for (const fault of ['', '{}', undefined, {}, { code: 201 }]) assert.throws(() => gate.confirm(tile, /** @type {any} */ (fault)), TypeError);
  assert.equal(gate.check(tile), null);
});

test('refused memory, and the call after it', async () => {
  const small = await load(withGreatestMemory(moduleBytes(), 64));
  const large = new Uint8Array(64 * 65536);
  for (const call of [() => small.check(large), () => small.faults(large), () => small.mend(large), () => small.dump(large), () => small.confirm(large, '{}')]) {
    assert.throws(call, OutOfMemory);
    assert.equal(small.check(sample('point')), null);
  }
});

test('a module that is given', async () => {
  const compiled = new WebAssembly.Module(moduleBytes());
  const response = () => new Response(moduleBytes(), { headers: { 'Content-Type': 'application/wasm' } });
  for (const source of [compiled, moduleBytes(), Promise.resolve(compiled), response(), Promise.resolve(response())]) {
    assert.equal((await load(source)).version, gate.version);
  }
  assert.equal(new Gate(compiled).version, gate.version);
  await assert.rejects(load(new Uint8Array(8)), WebAssembly.CompileError);
  await assert.rejects(load(new Response('', { status: 404 })), TypeError);
});

test('the version', () => {
  assert.equal(gate.version, readFileSync(`${TOP}VERSION`, 'utf8').trim());
});
