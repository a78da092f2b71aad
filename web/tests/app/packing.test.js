// Files packed by gzip and by zlib, and files that are too large.
import assert from 'node:assert/strict';
import { test } from 'node:test';
import { deflateRawSync, deflateSync, gzipSync } from 'node:zlib';
import { isGzip, pack, packingOf, unpack } from '../../site/app/files/packing.js';
import { readFile } from '../../site/app/files/read.js';

const TEXT = new TextEncoder().encode('a tile '.repeat(1000));
const PACKED = { gzip: new Uint8Array(gzipSync(TEXT)), zlib: new Uint8Array(deflateSync(TEXT)) };

test('a gzip file is known by its first two bytes', () => {
  assert.ok(isGzip(PACKED.gzip));
  assert.equal(packingOf(PACKED.gzip), 'gzip');
  for (const bytes of [[], [0x1f], [0x1f, 0x8c], [0x8b, 0x1f], [0x1a, 0x0e]]) assert.equal(packingOf(Uint8Array.from(bytes)), null);
});

test('a zlib stream is known by the two bytes of its head, at each level', () => {
  for (const level of [0, 1, 6, 9]) assert.equal(packingOf(new Uint8Array(deflateSync(TEXT, { level }))), 'zlib');
  for (const flags of [0x01, 0x5e, 0x9c, 0xda]) assert.equal(packingOf(Uint8Array.of(0x78, flags)), 'zlib');
  assert.ok(!isGzip(PACKED.zlib));
});

test('bytes that only resemble a zlib stream are taken as they are', async () => {
  const dictionary = new Uint8Array(deflateSync(TEXT, { dictionary: Buffer.from('tile') }));
  const smallWindow = new Uint8Array(deflateSync(TEXT, { windowBits: 10 }));
  const raw = new Uint8Array(deflateRawSync(TEXT));
  for (const bytes of [Uint8Array.of(0x78), Uint8Array.of(0x78, 0x02), dictionary, smallWindow, raw]) {
    assert.equal(packingOf(bytes), null);
    assert.equal(await unpack(bytes), bytes);
  }
});

test('what pack makes is unpacked again', async () => {
  assert.deepEqual(await unpack(await pack(TEXT)), TEXT);
});

for (const [name, packed] of Object.entries(PACKED)) {
  test(`${name} is unpacked`, async () => {
    assert.deepEqual(await unpack(packed), TEXT);
    const nothing = new Uint8Array();
    assert.deepEqual(await unpack(new Uint8Array(name === 'gzip' ? gzipSync(nothing) : deflateSync(nothing))), nothing);
  });

  test(`${name} that unpacks to the limit is taken, and one byte more is refused`, async () => {
    assert.equal((await unpack(packed, TEXT.length)).length, TEXT.length);
    await assert.rejects(unpack(packed, TEXT.length - 1), new RegExp(`the ${name} file unpacks to more than 6,999 bytes, the limit`));
  });

  test(`${name} that is damaged is refused`, async () => {
    const wrongSum = packed.slice();
    wrongSum[wrongSum.length - (name === 'gzip' ? 8 : 4)] ^= 1;
    for (const bytes of [packed.slice(0, -1), packed.slice(0, 12), packed.slice(0, 2), wrongSum]) {
      await assert.rejects(unpack(bytes), new RegExp(`the ${name} file is damaged`));
    }
  });
}

test('a file above the limit is refused before it is read', async () => {
  const file = /** @type {any} */ ({ size: 67108865, arrayBuffer: () => assert.fail('it was read') });
  await assert.rejects(readFile(file), /has 67,108,865 bytes, and the limit is 67,108,864/);
});

test('a file that the browser fails to read is refused', async () => {
  const file = /** @type {any} */ ({ size: 1, arrayBuffer: () => Promise.reject(new Error('gone')) });
  await assert.rejects(readFile(file), /the browser could not read the file/);
});
