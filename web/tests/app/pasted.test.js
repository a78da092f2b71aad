import assert from 'node:assert/strict';
import { test } from 'node:test';
import { bytesOfText } from '../../site/app/files/pasted.js';
import { SAMPLES, sample } from '../../../bindings/js/tests/samples.js';

const TILE = sample('crossing_edges'), HEX = Buffer.from(TILE).toString('hex'), BASE64 = Buffer.from(TILE).toString('base64');

for (const [name, text] of /** @type {[string, string][]} */ ([
  ['digits', HEX], ['large digits', HEX.toUpperCase()], ['lines of digits', HEX.replace(/.{16}/g, '$&\n')], ['pairs with spaces', HEX.replace(/../g, '$& ')],
  ['pairs with colons', HEX.replace(/../g, '$&:').slice(0, -1)], ['a value of PostgreSQL', `\\x${HEX}`], ['a value of SQLite', `x'${HEX}'`], ['0x', `0x${HEX}`],
  ['base64', BASE64], ['base64 for addresses', Buffer.from(TILE).toString('base64url')], ['lines of base64', BASE64.replace(/.{12}/g, '$&\r\n')],
  ['a data address', `data:application/x-protobuf;base64,${BASE64}`], ['spaces around', `  ${HEX}\n`],
])) {
  test(`a tile as ${name}`, () => assert.deepEqual(bytesOfText(text), TILE));
}

test('each sample in hexadecimal', () => {
  for (const { tile } of SAMPLES) if (tile.length) assert.deepEqual(bytesOfText(Buffer.from(tile).toString('hex')), tile);
});

test('a large tile', () => {
  const bytes = new Uint8Array(8 << 20).fill(0x1a);
  for (const text of [Buffer.from(bytes).toString('hex'), Buffer.from(bytes).toString('base64')]) assert.deepEqual(bytesOfText(text), bytes);
});

test('long base64 is read whatever its first byte is', () => {
  const bytes = Uint8Array.from({ length: 60 }, (_, at) => 255 - at);
  assert.deepEqual(bytesOfText(Buffer.from(bytes).toString('base64')), bytes);
});

test('other texts are no tile', () => {
  for (const text of ['', ' ', '14/8802/5373', 'roads', 'roads/more', 'https://tiles.example/14/8802/5373.mvt', 'abc', '0x', "x'", 'Ghä=', '=', '{"a":1}']) {
    assert.equal(bytesOfText(text), null, text);
  }
});
