import assert from 'node:assert/strict';
import { test } from 'node:test';
import { Calls } from '../../src/gate/calls.js';
import { mapOfTile, pictureOfFault, toText } from '../../src/picture/index.js';
import { SAMPLES, moduleBytes } from '../samples.js';

/** @typedef {import('../../src/picture/types.js').Picture} Picture */

const TILES = 1500;
const gate = new Calls(new WebAssembly.Module(moduleBytes()));

/** A known generator of numbers, so that a failure can be repeated. */
class Numbers {
  #state = 7;

  /** @param {number} end */
  below(end) {
    this.#state = (this.#state * 48271) % 2147483647;
    return this.#state % end;
  }
}

/**
 * A sample tile with one to three of its bytes changed, taken away or added.
 * @param {Numbers} numbers
 */
function changedTile(numbers) {
  const bytes = [...SAMPLES[numbers.below(SAMPLES.length)].tile];
  for (let left = 1 + numbers.below(3); left > 0; left--) {
    const at = numbers.below(bytes.length + 1), removed = numbers.below(2), added = numbers.below(2);
    bytes.splice(at, removed, ...(added ? [numbers.below(256)] : []));
  }
  return Uint8Array.from(bytes);
}

/**
 * What the words of a picture have to say of the judge's fault: the numbers or names in them, and how these have to be.
 * @type {Record<number, [RegExp, (...found: string[]) => boolean]>}
 */
const SAID = {
  103: [/field key (\d+) (has|is above)/, (key, what) => (what === 'has' ? BigInt(key) < 8n : BigInt(key) >= 2n ** 32n)],
  104: [/has wire type (\d)/, (wireType) => ['3', '4', '6', '7'].includes(wireType)],
  105: [/payload of (\d+) bytes, and (\d+) (?:is|are) left/, (length, left) => BigInt(length) > BigInt(left)],
  106: [/has wire type (\d).*its own is (\d)/, (wireType, own) => wireType !== own],
  110: [/isn't UTF-8: (.*)/, (text) => text.includes('\ufffd')],
  111: [/is (\d+), which is above (\d+)/, (number, greatest) => BigInt(number) > BigInt(greatest)],
  401: [/(a \w+|nothing more) is due, and it is (\w+)/, (due, found) => due !== `a ${found}`],
  402: [/is \w+ × (\d+), and the count has to be (at least )?(\d)/, (count, least, wanted) => (least ? Number(count) < Number(wanted) : count !== wanted)],
  403: [/where (a \w+|the [xy] of a step) is due/, () => true],
  504: [/(cross there|an end there|on one line)/, () => true],
};

/**
 * What is due at a fault of commands, by its code.
 * @type {Record<number, RegExp>}
 */
const DUE = { 401: /^(a |nothing)/, 402: /^a /, 404: /^the [xy] of a step$/, 405: /^the [xy] of a step$/, 406: /^the y of a step$/ };

/**
 * @param {Record<string, any>} fault
 * @param {Picture} picture
 */
function assertSays({ code }, { words, places }) {
  const [pattern, isSo] = SAID[code] ?? [/./, () => true];
  const found = pattern.exec(words);
  assert.ok(found && isSo(...found.slice(1)), words);
  if (DUE[code]) assert.match(places.find(({ name }) => name === 'due there')?.text ?? '', DUE[code], words);
}

test('the pictures of changed tiles say what the judge says', () => {
  const numbers = new Numbers(), codes = new Set();
  for (let k = 0; k < TILES; k++) {
    const tile = changedTile(numbers), line = gate.check(tile, k % 2 ? 'polygon' : 'feature');
    const fault = line === null ? null : JSON.parse(line);
    const record = fault && fault.code < 200 ? null : JSON.parse(gate.dump(tile).record ?? '');
    const picture = fault ? pictureOfFault(fault, tile, record) : mapOfTile(record);
    assert.ok(picture, line ?? '');
    for (const box of [picture.box, picture.close ?? picture.box]) assert.doesNotMatch(toText(picture, box), /NaN|undefined|Infinity/, line ?? '');
    if (fault) assertSays(fault, picture);
    codes.add(fault?.code);
  }
  assert.ok(codes.size > 20, [...codes].join(' '));
});
