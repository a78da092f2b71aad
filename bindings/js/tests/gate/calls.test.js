import assert from 'node:assert/strict';
import { test } from 'node:test';
import { OutOfMemory } from '../../src/gate/errors.js';
import { Calls } from '../../src/gate/calls.js';
import { SAMPLES, YES, faultyLayers, moduleBytes, sample } from '../samples.js';
import { withGreatestMemory } from './small_memory.js';
import { feature, tileOf } from '../wire.js';

/** @typedef {import('../../src/gate/calls.js').Profile} Profile */

const gate = new Calls(new WebAssembly.Module(moduleBytes()));
/** @type {Profile[]} */
const PROFILES = ['polygon', 'feature'];

/** @param {string} text of a fault */
function placeOf(text) {
  const { layer, feature } = JSON.parse(text);
  return { layer, feature };
}

test('there are sample tiles', () => {
  assert.ok(SAMPLES.length > 100);
});

for (const { name, tile, lines } of SAMPLES) {
  for (const profile of PROFILES) {
    test(`${name} by ${profile}`, () => {
      const fault = gate.check(tile, profile);
      assert.ok(lines[profile].includes(fault ?? YES), `${fault} is none of ${lines[profile]}`);
      if (fault !== null) assert.equal(gate.confirm(tile, fault, profile), 'confirmed');
    });

    test(`all faults of ${name} by ${profile}`, () => {
      const { count, texts } = gate.faultsQuickly(tile, profile);
      const [first] = lines[profile];
      assert.deepEqual(placeOf(texts[0] ?? YES), placeOf(first));
      assert.equal(texts[0] ?? null, gate.checkQuickly(tile, profile));
      if (profile === 'polygon') assert.equal(texts[0] ?? null, gate.check(tile, profile));
      assert.equal(count, texts.length);
      for (const text of texts) assert.equal(gate.confirm(tile, text, profile), 'confirmed');
    });
  }
}

for (const profile of PROFILES) {
  test(`faults of many layers by ${profile}`, () => {
    const { tile, faults } = faultyLayers();
    const { count, texts } = gate.faultsQuickly(tile, profile);
    assert.deepEqual(texts.map((text) => JSON.parse(text)), faults[profile]);
    assert.equal(count, profile === 'feature' ? 20 : 19);
    for (const text of texts) assert.equal(gate.confirm(tile, text, profile), 'confirmed');
  });
}

// (a line to a place without a start, in each feature: their text is longer than the first room for it)
test('more faults than leave the module', () => {
  const tile = tileOf(Array(50000).fill(feature(1, [10, 2, 2])));
  const { count, texts } = gate.faultsQuickly(tile, 'polygon');
  assert.equal(count, 50000);
  assert.equal(texts.length, 2000);
  texts.forEach((text, at) => assert.deepEqual(JSON.parse(text), { code: 401, feature: at, index: 0, layer: 0 }));
});

test('no fault of another tile is true of a valid one', () => {
  const valid = SAMPLES.filter(({ lines }) => lines.feature[0] === YES);
  const faults = SAMPLES.flatMap(({ lines }) => lines.feature).filter((line) => line !== YES);
  assert.ok(valid.length > 20 && faults.length > 50);
  for (const { tile } of valid.slice(0, 10)) {
    for (const fault of faults) assert.equal(gate.confirm(tile, fault, 'feature'), 'not confirmed');
  }
});

test('a fault of another profile is not confirmed', () => {
  const [line] = SAMPLES.filter(({ lines }) => lines.feature !== lines.polygon && lines.polygon[0] === YES);
  const fault = line.lines.feature[0];
  assert.equal(gate.confirm(line.tile, fault, 'feature'), 'confirmed');
  assert.equal(gate.confirm(line.tile, fault, 'polygon'), 'not confirmed');
});

test('what confirm says of texts that are no fault', () => {
  const tile = sample('crossing_edges');
  for (const text of ['', 'no', '{"code":201,"layer":0', '\u0000']) assert.equal(gate.confirm(tile, text, 'polygon'), 'not JSON');
  for (const text of ['[]', '{}', '{"ok":true}', '{"code":201}', '{"code":201,"layer":"0"}', '{"code":201,"layer":18446744073709551616}']) {
    assert.equal(gate.confirm(tile, text, 'polygon'), 'not a fault');
  }
  // (the number of a field has 32 bits, and x, y and w have 128 with a sign)
  assert.equal(gate.confirm(tile, '{"at":0,"code":102,"field":4294967296,"scope":"tile"}', 'polygon'), 'out of range');
  const meeting = JSON.parse(gate.check(tile, 'polygon') ?? '');
  assert.equal(gate.confirm(tile, JSON.stringify({ ...meeting, w: String(2n ** 127n) }), 'polygon'), 'out of range');
  assert.equal(gate.confirm(tile, ' { "layer" : 0, "code" : 201 }\n', 'polygon'), 'not confirmed');
});

test('what a tile holds', () => {
  const { record, fault } = gate.dump(sample('point'));
  assert.equal(fault, null);
  const { layers } = JSON.parse(record ?? '');
  assert.equal(layers.length, 1);
  assert.equal(layers[0].name, 'a');
});

test('bytes that are no tile have a wire fault, and no record or advice', () => {
  const expected = '{"at":0,"code":105,"field":3,"scope":"tile"}';
  assert.deepEqual(gate.dump(sample('truncated')), { record: null, fault: expected });
  assert.deepEqual(gate.advise(sample('truncated')), { advice: null, fault: expected });
});

test('what may be a mistake', () => {
  assert.deepEqual(gate.advise(sample('empty')), { advice: '{"advice":[{"kind":"no_layer"}]}', fault: null });
  assert.deepEqual(gate.advise(sample('bare_layer')), { advice: '{"advice":[{"kind":"no_feature","layer":0}]}', fault: null });
  assert.deepEqual(gate.advise(sample('point')), { advice: '{"advice":[]}', fault: null });
});

test('the text of a record is longer than the first room for it', () => {
  const tile = tileOf(Array(6000).fill(feature(0, [])));
  const { record } = gate.dump(tile);
  assert.equal(JSON.parse(record ?? '').layers[0].features.length, 6000);
  assert.ok((record ?? '').length > 4 * tile.length + 4096);
});

test('the version', () => {
  assert.match(gate.version(), /^\d+\.\d+\.\d+$/);
});

test('a call leaves nothing for the next one', () => {
  const other = new Calls(new WebAssembly.Module(moduleBytes()));
  const tile = tileOf(Array(2000).fill(feature(0, [])));
  const calls = () => [other.check(tile, 'polygon'), other.faultsQuickly(tile, 'feature'), other.dump(tile), other.advise(tile), other.confirm(tile, '[', 'polygon')];
  const first = calls();
  const { memory } = other;
  for (let at = 0; at < 50; at++) assert.deepEqual(calls(), first);
  assert.equal(other.memory, memory);
});

test('a profile that there is not', () => {
  assert.throws(() => gate.check(sample('point'), /** @type {any} */ ('neither')), TypeError);
  assert.throws(() => gate.check(sample('point'), /** @type {any} */ ('toString')), TypeError);
  assert.throws(() => gate.faultsQuickly(sample('point'), /** @type {any} */ ('neither')), TypeError);
});

/**
 * @param {number} pages
 * @returns {Calls} whose memory can't be larger
 */
function gateOf(pages) {
  return new Calls(new WebAssembly.Module(withGreatestMemory(moduleBytes(), pages)));
}

test('memory that is refused for the tile ends the call, and not the next one', () => {
  const small = gateOf(64);
  const large = new Uint8Array(64 * 65536);
  assert.throws(() => small.check(large, 'polygon'), OutOfMemory);
  assert.throws(() => small.checkQuickly(large, 'polygon'), OutOfMemory);
  assert.throws(() => small.faultsQuickly(large, 'polygon'), OutOfMemory);
  assert.throws(() => small.confirm(large, '{}', 'polygon'), OutOfMemory);
  assert.throws(() => small.dump(large), OutOfMemory);
  assert.throws(() => small.advise(large), OutOfMemory);
  assert.equal(small.check(sample('point'), 'polygon'), null);
});

test('memory that is refused to the judge ends the call', () => {
  const teeth = 20000;
  const steps = Array.from({ length: teeth }, (_, at) => [2, at % 2 ? 199 : 399, 2, at % 2 ? 200 : 400]).flat();
  const tile = tileOf([feature(3, [9, 0, 0, (2 * teeth + 1) * 8 + 2, ...steps, 0, 2000, 15])]);
  assert.equal(gate.check(tile, 'polygon'), null);
  // (there is room for the tile, and little more)
  const small = gateOf(26);
  assert.ok(gate.memory > 30 * 65536 && tile.length < 4 * 65536);
  assert.throws(() => small.check(tile, 'polygon'), OutOfMemory);
  assert.equal(small.check(sample('point'), 'polygon'), null);
});

test('a text that is longer than a string can be', () => {
  const decoder = globalThis.TextDecoder;
  const failures = [() => '', () => { throw new Error('Cannot create a string longer than 0x1fffffe8 characters'); }];
  try {
    for (const decode of failures) {
      globalThis.TextDecoder = /** @type {any} */ (class { decode = decode; });
      assert.throws(() => gate.dump(sample('point')), OutOfMemory);
    }
  } finally {
    globalThis.TextDecoder = decoder;
  }
});
