import assert from 'node:assert/strict';
import { test } from 'node:test';
import { gunzipSync, gzipSync, deflateSync, inflateSync } from 'node:zlib';
import { OutOfMemory, Stopped } from '../../../bindings/js/src/gate/errors.js';
import { Unreadable } from '../../site/app/files/read.js';
import { mendAll } from '../../site/app/mend/all.js';
import { placeAfter } from '../../site/app/mend/features.js';
import { fileNameOf, mendedName, packedAs } from '../../site/app/mend/file.js';
import { changeFacts, changeLine, halfText, isMendable, shareText, summaryOf } from '../../site/app/mend/words.js';

/** @typedef {import('../../../bindings/js/src/types.js').Change} Change */

/** @type {Change} */
const MENDED = { what: 'mended', layer: 0, feature: 7, area: ['1734', '1733'], polygons: [1, 2], vertices: [120, 1234], crossings: 1, cuts: 2 };
/** @type {Change} */
const DROPPED = { what: 'dropped', layer: 0, feature: 9 };

test('halves of whole numbers, exactly', () => {
  assert.deepEqual(['0', '1', '-1', '1734', '-1733', '36893488147419103233'].map(halfText),
    ['0', '0.5', '-0.5', '867', '-866.5', '18,446,744,073,709,551,616.5']);
});

test('shares of an area', () => {
  assert.deepEqual([['200', '100'], ['100', '101'], ['1', '1'], ['0', '5'], ['1000000', '999999'], ['-100', '50']].map((it) => shareText(/** @type {any} */ (it))),
    ['−50.00 %', '+1.00 %', '0 %', '', 'less than 0.01 %', '+150.00 %']);
});

test('words for changes', () => {
  assert.deepEqual(changeLine(MENDED), { title: 'Feature 7 of layer 0: mended', more: 'area by −0.06 %, 120 vertices became 1,234' });
  assert.deepEqual(changeLine(DROPPED), { title: 'Feature 9 of layer 0: left out', more: '' });
  assert.deepEqual(Object.fromEntries(changeFacts(MENDED)), {
    'Area': '867, now 866.5 (−0.06 %)', 'Polygons': '1, now 2', 'Vertices': '120, now 1,234', 'Crossings that were rounded to a position': '1',
    'Corners that were cut': '2',
  });
  assert.equal(changeFacts(DROPPED).length, 1);
  assert.equal(summaryOf([MENDED]), '1 feature mended. All else is byte for byte as it was.');
  assert.equal(summaryOf([MENDED, MENDED, DROPPED]), '2 features mended and 1 feature left out. All else is byte for byte as it was.');
});

test('which faults may be mended', () => {
  const codes = [101, 111, 201, 202, 301, 304, 401, 402, 403, 404, 405, 406, 501, 502, 503, 504, 505, 506, 507];
  assert.deepEqual(codes.filter((code) => isMendable({ code })), [402, 406, 501, 502, 503, 504, 505, 506, 507]);
  assert.equal(isMendable(null), false);
});

test('where a feature is after those before it were left out', () => {
  const changed = [{ ...DROPPED, feature: 1 }, { ...DROPPED, feature: 2 }, { ...MENDED, feature: 5 }, { ...MENDED, layer: 1, feature: 5 }];
  assert.deepEqual(placeAfter(changed, 2), { layer: 0, feature: 3 });
  assert.deepEqual(placeAfter(changed, 3), { layer: 1, feature: 5 });
});

test('names of mended files', () => {
  assert.deepEqual(['a.mvt', 'a/b.mvt.gz', '14-5-3.pbf', 'tile', '', 'tile of the link', '.mvt'].map(mendedName),
    ['a.mended.mvt', 'b.mended.mvt.gz', '14-5-3.mended.pbf', 'tile.mended.mvt', 'tile.mended.mvt', 'tile of the link.mended.mvt', 'tile.mended.mvt']);
  assert.deepEqual(['14.8802.5373.pbf', '14.8802.5373', '14.8802.5373.mvt.gz', 'a.b/v1.2.MVT'].map(mendedName),
    ['14.8802.5373.mended.pbf', '14.8802.5373.mended.mvt', '14.8802.5373.mended.mvt.gz', 'v1.2.mended.MVT']);
});

test('a tile of an archive as a file', () => {
  assert.equal(fileNameOf({ name: 'a/b.mvt', place: null }), 'a/b.mvt');
  assert.equal(fileNameOf({ name: 'swiss.mbtiles 14/8802/5373', place: { archive: 'swiss.mbtiles', zoom: 14, column: 8802, row: 5373 } }), 'swiss.mbtiles/14/8802/5373.mvt');
});

test('a mended tile is packed as it came', async () => {
  const tile = Uint8Array.of(1, 2, 3), as = async (/** @type {Uint8Array} */ file) => packedAs(new Blob([file]), tile);
  assert.deepEqual(await as(Uint8Array.of(0x1a, 0)), tile);
  assert.deepEqual(new Uint8Array(gunzipSync(await as(gzipSync('other')))), tile);
  assert.deepEqual(new Uint8Array(inflateSync(await as(deflateSync('other')))), tile);
});

const GOES_ON = new AbortController().signal;

/** Files in each state, and a gate that mends those of two bytes. */
function filesAndGate() {
  const entries = [['valid', 1], ['fault', 2], ['fault', 3], ['unreadable', 0], ['fault', 2]]
    .map(([state, size], at) => ({ state, name: `${at}.mvt`, file: new Blob([new Uint8Array(Number(size))]) }));
  const checks = /** @type {any} */ ({ entries, profile: 'feature', tileOf: async ({ file }) => new Uint8Array(await file.arrayBuffer()) });
  const asked = [];
  const gate = /** @type {any} */ ({
    mend: async (/** @type {Uint8Array} */ tile, /** @type {string} */ profile, /** @type {boolean} */ drop) => {
      asked.push([tile.length, profile, drop]);
      return tile.length === 2 ? { tile: Uint8Array.of(9), report: '{}', fault: null } : { tile: null, report: null, fault: '{}' };
    },
  });
  return { checks, gate, asked };
}

test('all files with a fault are mended', async () => {
  const { checks, gate, asked } = filesAndGate(), said = [];
  const { archive, sentence } = await mendAll(checks, gate, true, (it) => said.push(it), GOES_ON);
  assert.deepEqual(asked, [[2, 'feature', true], [3, 'feature', true], [2, 'feature', true]]);
  assert.equal(sentence, "2 mended tiles of 3 files with a fault. 1 file can't be mended.");
  assert.deepEqual(said, ['Mending 1 of 3 files ..', 'Mending 2 of 3 files ..', 'Mending 3 of 3 files ..']);
  const bytes = Buffer.from(await (archive ?? new Blob()).arrayBuffer());
  assert.ok(bytes.includes('1.mvt') && bytes.includes('4.mvt') && !bytes.includes('2.mvt'));
});

test('no archive where nothing was mended', async () => {
  const { checks, gate } = filesAndGate();
  checks.entries = checks.entries.filter(({ name }) => name === '2.mvt');
  assert.deepEqual(await mendAll(checks, gate, false, () => {}, GOES_ON), { archive: null, sentence: "0 mended tiles of 1 file with a fault. 1 file can't be mended." });
});

test('a file that can\'t be read, and one for which memory is refused, are left out', async () => {
  const { checks, gate } = filesAndGate(), { tileOf } = checks, { mend } = gate;
  checks.tileOf = async (/** @type {any} */ entry) => {
    if (entry.name === '2.mvt') throw new Unreadable('the browser could not read the file');
    return tileOf(entry);
  };
  const first = await mendAll(checks, gate, false, () => {}, GOES_ON);
  assert.equal(first.sentence, '2 mended tiles of 3 files with a fault. There was no answer for 1 file: the browser could not read the file.');
  assert.ok(first.archive);
  checks.tileOf = tileOf;
  let asked = 0;
  gate.mend = async (/** @type {any[]} */ ...given) => {
    asked += 1;
    if (asked === 1) throw new OutOfMemory();
    return mend(...given);
  };
  const second = await mendAll(checks, gate, false, () => {}, GOES_ON);
  assert.equal(second.sentence, "1 mended tile of 3 files with a fault. 1 file can't be mended. There was no answer for 1 file: the browser refused the memory that the check needs.");
});

for (const [when, at] of [['is read', 'tileOf'], ['is mended', 'mend']]) {
  test(`it ends where it is stopped while a file ${when}`, async () => {
    const { checks, gate, asked } = filesAndGate(), controller = new AbortController();
    const of = at === 'mend' ? gate : checks, before = of[at];
    of[at] = async (/** @type {any[]} */ ...given) => {
      const answer = await before(...given);
      controller.abort(new Stopped());
      return answer;
    };
    await assert.rejects(mendAll(checks, gate, false, () => {}, controller.signal), Stopped);
    assert.equal(asked.length, at === 'mend' ? 1 : 0);
  });
}
