// The servers of examples/, each a process of its own over the installed package.
import assert from 'node:assert/strict';
import { spawn } from 'node:child_process';
import { existsSync, mkdirSync, writeFileSync } from 'node:fs';
import http from 'node:http';
import { after, test } from 'node:test';
import { gunzipSync, gzipSync } from 'node:zlib';
import { tileGate } from '../../examples/tile_gate.js';
import { load } from '../../src/node.js';
import { freshFolder, install, packed } from '../package/installed.js';
import { sample } from '../samples.js';

const DEBIAN = '/usr/share/nodejs'; // where Debian's node-express is
const gate = await load();
const folder = freshFolder(), tiles = freshFolder();
install(packed(folder), folder);

const TILES = ['point', 'crossing_edges', 'truncated', 'odd_tags', 'empty'];
for (const name of TILES) {
  writeFileSync(`${tiles}/${name}.mvt`, sample(name));
  writeFileSync(`${tiles}/${name}.mvt.gz`, gzipSync(sample(name)));
}
mkdirSync(`${tiles}/14/8802`, { recursive: true });
writeFileSync(`${tiles}/14/8802/5373.mvt`, sample('point'));
writeFileSync(`${tiles}/damaged.mvt.gz`, gzipSync(sample('point')).subarray(0, 20));
writeFileSync(`${tiles}/huge.mvt.gz`, gzipSync(new Uint8Array(17 << 20)));

/**
 * @param {string} script
 * @param {string[]} words
 * @returns {Promise<{address: string, said: () => string}>}
 */
function serve(script, ...words) {
  const path = `${folder}/node_modules/mvtgate/examples/${script}`;
  const server = spawn(process.execPath, [path, tiles, '0', ...words], { env: { ...process.env, NODE_PATH: DEBIAN }, stdio: ['ignore', 'pipe', 'inherit'] });
  after(() => server.kill());
  let said = '';
  return new Promise((resolve, reject) => {
    server.once('exit', () => reject(new Error(`${script} ended: ${said}`)));
    server.stdout.on('data', (part) => {
      said += part;
      const [, address] = /^(http:\S+)\n/.exec(said) ?? [];
      if (address) resolve({ address, said: () => said });
    });
  });
}

/**
 * @param {string} address
 * @param {http.RequestOptions} [options]
 * @returns {Promise<{status?: number, headers: http.IncomingHttpHeaders, body: Buffer}>} as it was sent, still packed
 */
function get(address, options = {}) {
  return new Promise((resolve, reject) => {
    http.request(address, options, (answer) => {
      /** @type {Buffer[]} */
      const parts = [];
      answer.on('data', (part) => parts.push(part)).on('end', () => resolve({ status: answer.statusCode, headers: answer.headers, body: Buffer.concat(parts) }));
      answer.on('error', reject);
    }).on('error', reject).end();
  });
}

for (const script of ['http_server.js', 'express_server.js']) {
  const skip = script === 'express_server.js' && !existsSync(`${DEBIAN}/express`) && 'there is no node-express';

  test(`${script} sends valid tiles as they are, and no others`, { skip }, async () => {
    const { address, said } = await serve(script);
    for (const name of ['point', 'empty']) {
      const plain = await get(`${address}${name}.mvt`), gzip = await get(`${address}${name}.mvt.gz`);
      assert.deepEqual([plain.status, plain.body], [200, Buffer.from(sample(name))]);
      assert.deepEqual([gzip.status, gzip.headers['content-encoding'], gunzipSync(gzip.body)], [200, 'gzip', Buffer.from(sample(name))]);
      assert.equal(plain.headers['content-type'], 'application/vnd.mapbox-vector-tile');
    }
    for (const name of ['crossing_edges', 'truncated', 'odd_tags']) {
      for (const ending of ['.mvt', '.mvt.gz']) {
        const { status, headers, body } = await get(address + name + ending);
        assert.deepEqual([status, headers['x-tile-fault'], body.length], [500, String(gate.check(sample(name))?.code), 0]);
        assert.deepEqual([headers['cache-control'], headers['content-encoding'], headers.etag], ['no-store', undefined, undefined]);
      }
    }
    const lines = said().trimEnd().split('\n').slice(1).map((line) => JSON.parse(line));
    assert.deepEqual(lines.map(({ url, outcome, fault }) => ({ url, outcome, fault })).slice(0, 1),
      [{ url: '/crossing_edges.mvt', outcome: 'refused', fault: gate.check(sample('crossing_edges')) }]);
    assert.equal(lines.length, 6);
  });

  test(`${script} mends tiles`, { skip }, async () => {
    const { address } = await serve(script, 'mend');
    const wanted = Buffer.from(/** @type {Uint8Array} */ (gate.mend(sample('crossing_edges')).tile));
    const plain = await get(`${address}crossing_edges.mvt`), gzip = await get(`${address}crossing_edges.mvt.gz`);
    assert.deepEqual([plain.status, plain.headers['x-tile-mended'], plain.body], [200, '1', wanted]);
    assert.deepEqual([gzip.status, gzip.headers['x-tile-mended'], gunzipSync(gzip.body)], [200, '1', wanted]);
    assert.deepEqual([(await get(`${address}odd_tags.mvt`)).status, (await get(`${address}point.mvt`)).body], [500, Buffer.from(sample('point'))]);
  });

  test(`${script}: parts, heads, packing that is damaged or too much, what is no tile, and many at once`, { skip }, async () => {
    const { address } = await serve(script);
    const part = await get(`${address}crossing_edges.mvt`, { headers: { Range: 'bytes=0-3' } });
    assert.equal(part.status, 500);
    const whole = await get(`${address}point.mvt`, { headers: { Range: 'bytes=0-3' } });
    assert.deepEqual([whole.status, whole.body], [200, Buffer.from(sample('point'))]);
    assert.equal((await get(`${address}point.mvt`, { method: 'HEAD' })).status, 200);
    for (const name of ['damaged', 'huge']) assert.equal((await get(`${address}${name}.mvt.gz`)).status, 500);
    assert.equal((await get(`${address}missing.mvt`)).status, 404);
    assert.deepEqual((await get(`${address}14/8802/5373.mvt?v=2`)).body, Buffer.from(sample('point')));
    for (const name of ['..%2fpoint.mvt', '14/../point.mvt/', '.mvt']) assert.ok([403, 404].includes((await get(address + name)).status ?? 0), name);
    const all = await Promise.all(Array.from({ length: 60 }, (_, at) => get(`${address}${TILES[at % 3]}.mvt`)));
    assert.deepEqual(all.map(({ status }) => status), all.map((_, at) => (at % 3 ? 500 : 200)));
  });
}

test('the head of what is no tile is sent as soon as it is flushed', async (context) => {
  const gateOf = tileGate(/** @type {any} */ ({}));
  const server = http.createServer((asked, answer) => gateOf(asked, answer, () => {
    answer.writeHead(200, { 'Content-Type': 'text/event-stream' });
    answer.flushHeaders();
  }));
  context.after(() => server.closeAllConnections());
  context.after(() => server.close());
  await new Promise((resolve) => { server.listen(0, '127.0.0.1', () => resolve(null)); });
  const { port } = /** @type {import('node:net').AddressInfo} */ (server.address());
  const answer = await new Promise((resolve, reject) => { http.get({ port, host: '127.0.0.1' }, resolve).on('error', reject); });
  assert.equal(answer.headers['content-type'], 'text/event-stream');
  answer.destroy();
});
