import assert from 'node:assert/strict';
import { execFileSync } from 'node:child_process';
import { readFileSync } from 'node:fs';
import { test } from 'node:test';
import { SAMPLES, TOP, YES, sample } from '../../../bindings/js/tests/samples.js';
import { feature, field, tileOf } from '../../../bindings/js/tests/wire.js';
import { explainFormat } from '../../../bindings/js/src/words/explain.js';
import { newEntry } from '../../site/app/files/checks.js';
import { aboutOf, pointOf } from '../../site/app/results/about.js';
import { addressOf, boxOn, positionOn } from '../../site/app/results/address.js';
import { placeText } from '../../site/app/results/place.js';
import { csvOf, geojsonOf, jsonOf } from '../../site/app/results/write.js';

/** @typedef {import('../../site/app/files/checks.js').Entry} Entry */

const { faults: words } = JSON.parse(readFileSync(`${TOP}bindings/faults.json`, 'utf8'));

/**
 * @param {string} name
 * @param {string} [tile] a sample with a fault; a valid file where it is left out
 * @returns {Entry}
 */
function entryOf(name, tile) {
  const entry = newEntry(name, new Blob([]));
  if (!tile) return { ...entry, state: 'valid' };
  const said = SAMPLES.find((it) => it.name === tile)?.lines.polygon[0] ?? '', fault = JSON.parse(said);
  return { ...entry, state: 'fault', said, fault, about: aboutOf(fault, sample(tile)) };
}

test('addresses in names', () => {
  const zurich = { zoom: 14, column: 8802, row: 5373 };
  for (const name of ['14/8802/5373.mvt', 'a/14/8802/5373.pbf.gz', '14-8802-5373.mvt', 'zurich_14_8802_5373.mvt', 'swiss.mbtiles 14/8802/5373', '14.8802.5373.pbf']) {
    assert.deepEqual(addressOf(name), zurich, name);
  }
  assert.deepEqual(addressOf('0/0/0.mvt'), { zoom: 0, column: 0, row: 0 });
  for (const name of ['tile.mvt', '8802/5373.mvt', '14/8802.mvt', '1/2/0.mvt', '0/0/1', '31/0/0.mvt', '14-8802/5373.mvt', '14/8802/5373.png', '', '1/-1/0']) {
    assert.equal(addressOf(name), null, name);
  }
});

test('places on the earth', () => {
  assert.deepEqual(boxOn({ zoom: 0, column: 0, row: 0 }), { west: -180, south: -85.051128780, east: 180, north: 85.051128780 });
  assert.deepEqual(positionOn({ zoom: 1, column: 1, row: 1 }, 0, 0), [0, 0]);
  assert.deepEqual(positionOn({ zoom: 0, column: 0, row: 0 }, 0.75, 0.5), [90, 0]);
  // (the buffer of the last tile of a row goes on in the first one)
  assert.deepEqual(positionOn({ zoom: 1, column: 1, row: 0 }, 1.5, 1), [-90, 0]);
  assert.deepEqual(positionOn({ zoom: 1, column: 0, row: 0 }, -0.5, 1), [90, 0]);
});

test('places by the inverse of the projection', () => {
  for (let at = 0; at < 200; at += 1) {
    const zoom = at % 15, column = (at * 7) % 2 ** zoom, row = (at * 13) % 2 ** zoom, x = ((at * 997) % 4097) / 4096, y = ((at * 331) % 4097) / 4096;
    const [longitude, latitude] = positionOn({ zoom, column, row }, x, y);
    const across = longitude / 360 + 0.5, down = 0.5 - Math.log(Math.tan(Math.PI / 4 + (latitude * Math.PI) / 360)) / (2 * Math.PI);
    assert.ok(Math.abs(across * 2 ** zoom - column - x) < 1e-6 && Math.abs(down * 2 ** zoom - row - y) < 1e-6, `${zoom}/${column}/${row}`);
  }
});

test('what a fault is about', () => {
  const tile = tileOf([feature(3, [9, 0, 0, 26, 20, 15, 0, 20, 19, 19, 15])]);
  assert.deepEqual(aboutOf({ code: 504, layer: 0, feature: 0 }, tile), { layer: 'a', featureId: null, extent: 4096 });
  const id = field(2, [0x08, ...Array(9).fill(0xff), 1, 0x18, 1, ...field(4, [10, 2, 2])]);
  const other = new Uint8Array(field(3, [0x78, 2, ...field(1, [0xc3, 0x9f]), 0x28, 0x80, 4, ...id]));
  assert.deepEqual(aboutOf({ code: 401, layer: 0, feature: 0, index: 0 }, other), { layer: 'ß', featureId: '18446744073709551615', extent: 512 });
  const marked = new Uint8Array(field(3, [0x78, 2, ...field(1, [0xef, 0xbb, 0xbf, 0x61])]));
  assert.equal(aboutOf({ code: 201, layer: 0 }, marked).layer, '\ufeffa');
  assert.deepEqual(aboutOf({ code: 202, first: 0, second: 1 }, tile), { layer: 'a', featureId: null, extent: 4096 });
  assert.deepEqual(aboutOf({ code: 105, at: 0, field: 3, scope: 'tile' }, Uint8Array.of(0x1a, 9)), { layer: null, featureId: null, extent: 4096 });
  assert.deepEqual(aboutOf({ code: 504, layer: 7, feature: 0 }, tile), { layer: null, featureId: null, extent: 4096 });
  for (const { tile: it, lines } of SAMPLES) if (lines.polygon[0] !== YES) aboutOf(JSON.parse(lines.polygon[0]), it);
});

test('the point of a fault', () => {
  assert.deepEqual(pointOf({ code: 504, x: '-2048', y: '4096', w: '2' }, { layer: null, featureId: null, extent: 4096 }), { x: -0.25, y: 0.5 });
  assert.equal(pointOf({ code: 501, ring: 0 }, { layer: null, featureId: null, extent: 4096 }), null);
  assert.equal(pointOf({ code: 504, x: '1', y: '1', w: '2' }, { layer: null, featureId: null, extent: 0 }), null);
});

test('where a fault is, in words', () => {
  const fault = { code: 504, layer: 0, feature: 0, x: '8192', y: '8192', w: '4' };
  const tile = tileOf([feature(3, [9, 0, 0])]);
  assert.equal(placeText('0/0/0.mvt', fault, tile), '0, 0');
  assert.equal(placeText('0/0/0.mvt', { code: 201, layer: 0 }, tile), 'the tile from -180, -85.05112878 to 180, 85.05112878');
  assert.equal(placeText('tile.mvt', fault, tile), '');
});

/** @param {string} text CSV, as Python's module csv reads it */
function rowsOf(text) {
  const PYTHON = 'import csv, io, json, sys\nprint(json.dumps(list(csv.DictReader(io.StringIO(sys.stdin.read(), newline="")))))';
  return JSON.parse(execFileSync('python3', ['-c', PYTHON], { input: text, encoding: 'utf8' }));
}

test('results as CSV', () => {
  const entries = [
    entryOf('0/0/0.mvt', 'crossing_edges'), entryOf('a, "b"\nc.mvt'), { ...newEntry('=gone', new Blob([])), state: /** @type {const} */ ('unreadable'), reason: 'no' },
    newEntry('waits', new Blob([])),
  ];
  const [one, two, three, ...others] = rowsOf(csvOf(entries));
  assert.deepEqual(others, []);
  const fault = entries[0].fault, [longitude, latitude] = positionOn({ zoom: 0, column: 0, row: 0 }, 40 / 9 / 4096, 40 / 9 / 4096);
  assert.deepEqual([one.file, one.verdict, one.code, one.title, one.layer, one.layer_name, one.feature, JSON.parse(one.fault)],
    ['0/0/0.mvt', 'fault', '504', words[504].title, '0', 'a', '0', fault]);
  assert.deepEqual([one.longitude, one.latitude], [String(longitude), String(latitude)]);
  assert.deepEqual([two.file, two.verdict, two.code], ['a, "b"\nc.mvt', 'valid', '']);
  assert.deepEqual([three.file, three.verdict, three.sentence], ["'=gone", 'error', 'no']);
});

test('results as lines of JSON', () => {
  const entries = [entryOf('a.mvt', 'truncated'), entryOf('b.mvt'), { ...newEntry('c', new Blob([])), state: /** @type {const} */ ('unreadable'), reason: 'no' }];
  const [one, ...others] = jsonOf(entries).trimEnd().split('\n').map((line) => JSON.parse(line));
  assert.deepEqual([one.file, one.fault], ['a.mvt', entries[0].fault]);
  assert.ok(one.sentence.startsWith('In the tile'));
  assert.deepEqual(others, [{ file: 'b.mvt', valid: true }, { file: 'c', error: 'no' }]);
});

test('a line of JSON has the name of another format, as mvtgate-check writes it', () => {
  const entry = entryOf('a.mvt', 'truncated'), format = explainFormat({ code: 104 }, Uint8Array.of(0x1f, 0x8b));
  const { sentence, ...others } = JSON.parse(jsonOf([{ ...entry, format }]));
  assert.deepEqual(others, { file: 'a.mvt', fault: entry.fault, format: 'gzip' });
  assert.ok(!sentence.includes(format?.sentence)); // (it has a key of its own)
});

test('results of a tile of an archive name the archive and the tile, as mvtgate-check does', () => {
  const name = 'swiss.mbtiles 14/8802/5373', place = { archive: 'swiss.mbtiles', zoom: 14, column: 8802, row: 5373 };
  const entry = { ...entryOf(name, 'crossing_edges'), place };
  assert.deepEqual(JSON.parse(jsonOf([{ ...entryOf(name), place }])), { file: 'swiss.mbtiles', tile: '14/8802/5373', valid: true });
  assert.equal(JSON.parse(jsonOf([entry])).tile, '14/8802/5373');
  const { tile, source } = JSON.parse(geojsonOf([entry]).text).features[0].properties;
  assert.deepEqual([tile, source], ['14/8802/5373', 'swiss.mbtiles']);
  assert.ok(csvOf([entry]).split('\r\n')[1].startsWith(`${name},fault,504,`));
});

test('faults as GeoJSON', () => {
  const { text, count } = geojsonOf([entryOf('0/0/0.mvt', 'crossing_edges'), entryOf('1/1/0.mvt', 'version_one'), entryOf('x.mvt', 'truncated'), entryOf('0/0/0.mvt')]);
  const { type, features: [point, box] } = JSON.parse(text);
  assert.deepEqual([type, count], ['FeatureCollection', 2]);
  assert.deepEqual(point.geometry, { type: 'Point', coordinates: positionOn({ zoom: 0, column: 0, row: 0 }, 40 / 9 / 4096, 40 / 9 / 4096) });
  assert.deepEqual({ ...point.properties, sentence: '' }, { tile: '0/0/0', zoom: 0, column: 0, row: 0, layer: 'a', feature_id: null, code: 504, sentence: '', source: '0/0/0.mvt' });
  assert.deepEqual(box.geometry.coordinates, [[[0, 0], [180, 0], [180, 85.05112878], [0, 85.05112878], [0, 0]]]);
  assert.deepEqual(geojsonOf([]), { text: '{"type": "FeatureCollection", "features": [\n\n]}\n', count: 0 });
});
