// Bytes of other formats that are taken for tiles. (Their beginnings are those of the formats' own specifications.)
import assert from 'node:assert/strict';
import { readFileSync } from 'node:fs';
import { test } from 'node:test';
import { deflateSync, gzipSync } from 'node:zlib';
import { formatInWords } from '../src/words/formats.js';
import { TOP } from './samples.js';

/** @type {{formats: import('../src/words/formats.js').Formats}} */
const { formats } = JSON.parse(readFileSync(`${TOP}bindings/faults.json`, 'utf8'));
const WIRE_FAULT = { code: 104, at: 0, field: 3, scope: 'tile' };

/**
 * The name of the format of these bytes.
 * @param {Uint8Array|string} content
 * @param {{code: number}} fault
 */
function nameOf(content, fault = WIRE_FAULT) {
  return formatInWords(formats, fault, typeof content === 'string' ? new TextEncoder().encode(content) : content)?.name ?? null;
}

for (const [name, content] of /** @type {[string, Uint8Array|string][]} */ ([
  ['gzip', gzipSync('tile')], ['zlib', deflateSync('tile')], ['zlib', deflateSync('tile', { level: 9 })],
  ['zstd', Uint8Array.of(0x28, 0xb5, 0x2f, 0xfd, 4, 0)], ['sqlite', 'SQLite format 3\0'], ['pmtiles', 'PMTiles\x03'],
  ['png', Uint8Array.of(0x89, 0x50, 0x4e, 0x47, 0x0d, 0x0a, 0x1a, 0x0a, 0)],
  ['json', '{"type":"FeatureCollection"}'], ['json', '[1]'], ['json', '\ufeff \r\n\t{}'],
])) {
  test(`bytes of ${name} are known by their beginning: ${JSON.stringify(String(content)).slice(0, 24)}`, () => assert.equal(nameOf(content), name));
}

test('a format has its words', () => {
  const { begins, ...words } = formats.sqlite;
  assert.deepEqual(formatInWords(formats, WIRE_FAULT, new TextEncoder().encode('SQLite format 3\0')), { name: 'sqlite', ...words });
  assert.ok(begins);
});

test('other bytes have no format', () => {
  for (const content of ['', ' ', 'tile', '<html>', 'SQLite format 3', Uint8Array.of(0x1f), Uint8Array.of(0x28, 0xb5, 0x2f)]) assert.equal(nameOf(content), null);
});

test('only a beginning counts', () => assert.equal(nameOf(' PMTiles'), null));

test('the first 1,024 bytes are looked at', () => {
  assert.equal(nameOf(`${' '.repeat(1023)}{`), 'json');
  assert.equal(nameOf(`${' '.repeat(1024)}{`), null);
});

test('a tile that has no wire fault is of no other format', () => {
  assert.equal(nameOf('{}', { code: 111 }), 'json');
  for (const code of [201, 301, 504]) assert.equal(nameOf('{}', { code }), null);
});
