// Tiles in addresses.
import assert from 'node:assert/strict';
import { readFileSync } from 'node:fs';
import { test } from 'node:test';
import { deflateSync, gzipSync } from 'node:zlib';
import { base64OfBytes, bytesOfBase64, readLink, writeLink } from '../../site/app/files/link.js';
import { unpack } from '../../site/app/files/packing.js';
import { Unreadable } from '../../site/app/files/read.js';

const ALL_BYTES = Uint8Array.from({ length: 256 }, (_, byte) => byte);
const point = new Uint8Array(readFileSync(new URL('../../../tiles/point.mvt', import.meta.url)));

test('base64 is that of Node, with the letters for addresses', () => {
  for (const length of [0, 1, 2, 3, 255, 256]) {
    const bytes = ALL_BYTES.subarray(0, length);
    assert.equal(base64OfBytes(bytes), Buffer.from(bytes).toString('base64url'));
    assert.deepEqual(bytesOfBase64(Buffer.from(bytes).toString('base64')), bytes);
    assert.deepEqual(bytesOfBase64(Buffer.from(bytes).toString('base64url')), bytes);
  }
});

test('a link has a tile and a profile', () => {
  const text = Buffer.from(ALL_BYTES).toString('base64url');
  assert.deepEqual(readLink(`#tile=${text}`), { bytes: ALL_BYTES, profile: 'polygon' });
  assert.deepEqual(readLink(`#tile=${text}&profile=feature`), { bytes: ALL_BYTES, profile: 'feature' });
  assert.deepEqual(readLink(`#profile=feature&tile=${text}`), { bytes: ALL_BYTES, profile: 'feature' });
  assert.deepEqual(readLink(`#tile=${encodeURIComponent(Buffer.from(ALL_BYTES).toString('base64'))}`)?.bytes, ALL_BYTES);
  assert.equal(readLink(`#tile=${text}&profile=features`)?.profile, 'polygon');
  assert.deepEqual(readLink('#tile=')?.bytes, new Uint8Array());
});

test('an address without a tile is no link', () => {
  for (const fragment of ['', '#', '#answer', '#profile=feature', '#atile=AAAA']) assert.equal(readLink(fragment), null);
});

test('a text that is no base64 is refused with a sentence', () => {
  for (const text of ['!', 'A', 'AAAAA', 'A=A', '%', '%ff']) assert.throws(() => readLink(`#tile=${text}`), Unreadable);
});

test('a small tile is written as it is, and read back', async () => {
  const link = await writeLink(point, 'polygon');
  assert.equal(link, `#tile=${Buffer.from(point).toString('base64url')}`);
  assert.deepEqual(readLink(link ?? ''), { bytes: point, profile: 'polygon' });
  assert.equal(readLink(await writeLink(point, 'feature') ?? '')?.profile, 'feature');
});

test('a tile that gzip makes shorter is packed', async () => {
  const tile = new Uint8Array(100000);
  const link = readLink(await writeLink(tile, 'polygon') ?? '');
  assert.ok(link && link.bytes.length < 1000);
  assert.deepEqual(await unpack(link.bytes), tile);
});

test('bytes that would be taken for packed ones are packed once more', async () => {
  for (const tile of [gzipSync(point), deflateSync(point), Uint8Array.of(0x78, 0x01)]) {
    const link = readLink(await writeLink(new Uint8Array(tile), 'polygon') ?? '');
    assert.ok(link);
    assert.deepEqual(await unpack(link.bytes), new Uint8Array(tile));
  }
});

test('there is no link to a tile that is too large', async () => {
  const noise = Uint8Array.from({ length: 17000 }, (_, at) => (at * at * 2654435761) >>> 13);
  assert.ok(gzipSync(noise).length > 16384);
  assert.equal(await writeLink(noise, 'polygon'), null);
  assert.equal(await writeLink(new Uint8Array(1 << 20), 'polygon'), null);
});
