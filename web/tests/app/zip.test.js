// The archive, as Python's module zipfile reads it.
import assert from 'node:assert/strict';
import { execFileSync } from 'node:child_process';
import { mkdtempSync, rmSync, writeFileSync } from 'node:fs';
import { tmpdir } from 'node:os';
import { test } from 'node:test';
import { checkSum, zip } from '../../site/app/files/zip.js';
import { nameAmong } from '../../site/app/mend/all.js';

const READ = `
import json, sys, zipfile
with zipfile.ZipFile(sys.argv[1]) as archive:
    assert archive.testzip() is None
    print(json.dumps([[it.filename, archive.read(it).hex(), it.compress_type, it.date_time] for it in archive.infolist()]))
`;

/** @param {import('../../site/app/files/zip.js').Member[]} members */
async function read(members) {
  const room = mkdtempSync(`${tmpdir()}/mvtgate-`);
  try {
    writeFileSync(`${room}/made.zip`, new Uint8Array(await zip(members).arrayBuffer()));
    return JSON.parse(execFileSync('python3', ['-c', READ, `${room}/made.zip`], { encoding: 'utf8' }));
  } finally {
    rmSync(room, { recursive: true });
  }
}

test('the sum of the text that checks it', () => {
  assert.equal(checkSum(new TextEncoder().encode('123456789')), 0xcbf43926);
  assert.equal(checkSum(new Uint8Array()), 0);
});

test('files come out as they went in', async () => {
  const members = [
    { name: 'a/b.mvt', bytes: Uint8Array.of(0, 255, 7) }, { name: 'leer.mvt', bytes: new Uint8Array() },
    { name: 'شارع/ß.mvt.gz', bytes: Uint8Array.from({ length: 70000 }, (_, at) => at % 251) },
  ];
  assert.deepEqual(await read(members), members.map(({ name, bytes }) => [name, Buffer.from(bytes).toString('hex'), 0, [1980, 1, 1, 0, 0, 0]]));
  assert.deepEqual(await read([]), []);
});

test('more files than an archive can have', () => {
  assert.throws(() => zip(Array.from({ length: 65536 }, (_, at) => ({ name: String(at), bytes: new Uint8Array() }))), /at most 65,535 files/);
});

test('names in an archive are relative, and each is another one', () => {
  const names = new Set();
  const given = ['a.mvt', 'a.mvt', 'a.mvt', '/b/a.mvt', '../b/a.mvt', 'c\\d.mvt.gz', './c/d.mvt.gz', '', '..', 'e', 'e', 'v1.2/3.4.pbf', 'v1.2/3.4.pbf'];
  assert.deepEqual(given.map((it) => nameAmong(names, it)),
    ['a.mvt', 'a (2).mvt', 'a (3).mvt', 'b/a.mvt', '_/b/a.mvt', 'c/d.mvt.gz', 'c/d (2).mvt.gz', 'tile.mvt', '_', 'e', 'e (2)', 'v1.2/3.4.pbf', 'v1.2/3.4 (2).pbf']);
});
