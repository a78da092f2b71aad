// Texts of tiles, whole and cut. (U+FEFF is EF BB BF in UTF-8; letters beyond U+FFFF are two units of UTF-16.)
import assert from 'node:assert/strict';
import { test } from 'node:test';
import { cut, quotedName, shortText } from '../../src/picture/words.js';
import { textOfBytes } from '../../src/tile/text.js';

const MAP = '\u{1f5fa}';

test('a byte order mark at the beginning is a letter', () => {
  const bytes = Uint8Array.of(0xef, 0xbb, 0xbf, 0x61);
  assert.equal(textOfBytes(bytes), '\ufeffa');
  assert.equal(textOfBytes(bytes), '\ufeffa');
  assert.equal(shortText(bytes), '"\ufeffa"');
});

test('bytes that are no UTF-8', () => assert.equal(textOfBytes(Uint8Array.of(0x61, 0xff)), 'a\ufffd'));

test('a letter of two units is whole or left out', () => {
  assert.deepEqual([3, 4, 5, 6].map((most) => cut(`a${MAP}${MAP}`, most)), [`a…`, `a${MAP}…`, `a${MAP}${MAP}`, `a${MAP}${MAP}`]);
  assert.equal(cut(`${MAP}bc`, 3), `${MAP}…`);
  assert.equal(shortText(new TextEncoder().encode(MAP.repeat(20))), `"${MAP.repeat(15)}…"`); // (of 32 letters one is for the dots)
  assert.equal(quotedName(MAP.repeat(40)), `"${MAP.repeat(29)}…`);
});
