// The gate of examples/ in front of handlers that answer in many ways, over a pool that is a stand-in.
import assert from 'node:assert/strict';
import http from 'node:http';
import { mock, test } from 'node:test';
import { gzipSync } from 'node:zlib';
import { tileGate } from '../../examples/tile_gate.js';

const TILE = { 'Content-Type': 'application/vnd.mapbox-vector-tile' };
/** @type {any} */
const VALID = { check: async () => null };
/** @type {any} */
const FAULTY = { check: async () => ({ code: 504 }) };

/**
 * What a client gets.
 * @param {any} pool
 * @param {(answer: http.ServerResponse) => void} handle
 * @param {any} [options]
 * @returns {Promise<http.IncomingMessage & {length: number}>}
 */
async function answered(pool, handle, options) {
  const gate = tileGate(pool, options), server = http.createServer((asked, answer) => gate(asked, answer, () => handle(answer)));
  await new Promise((resolve) => { server.listen(0, '127.0.0.1', () => resolve(null)); });
  const { port } = /** @type {import('node:net').AddressInfo} */ (server.address());
  try {
    return await new Promise((resolve, reject) => {
      const request = http.get({ port, host: '127.0.0.1' }, (answer) => {
        let length = 0;
        answer.on('data', (part) => { length += part.length; }).on('end', () => resolve(Object.assign(answer, { length })));
      });
      request.setTimeout(3000, () => request.destroy(new Error('no answer')));
      request.on('error', reject);
    });
  } finally {
    server.closeAllConnections();
    server.close();
  }
}

test('what is no tile is sent with all its headers and its own words for the status', async () => {
  const headers = ['Set-Cookie', 'a=1', 'Content-Type', 'text/plain', 'set-cookie', 'b=2'];
  const answer = await answered(VALID, (it) => it.writeHead(404, 'Nothing here', headers).end('none'));
  assert.deepEqual([answer.statusCode, answer.statusMessage, answer.length], [404, 'Nothing here', 4]);
  assert.deepEqual([answer.headers['set-cookie'], answer.headers['content-type']], [['a=1', 'b=2'], 'text/plain']);
});

test('a tile that is refused has the words of its own status', async () => {
  const { statusCode, statusMessage, length } = await answered(FAULTY, (it) => it.writeHead(200, 'All is well', TILE).end('tile'));
  assert.deepEqual([statusCode, statusMessage, length], [500, 'Internal Server Error', 0]);
});

test('tiles are known by each of their types, and nothing else is', async () => {
  const by = async (/** @type {string} */ type) => (await answered(FAULTY, (it) => it.writeHead(200, { 'Content-Type': type }).end('tile'))).statusCode;
  for (const type of ['application/vnd.mapbox-vector-tile', 'application/x-protobuf', 'application/protobuf', 'Application/Protobuf; charset=utf-8']) assert.equal(await by(type), 500, type);
  for (const type of ['application/json', 'application/x-protobuffer', 'image/png']) assert.equal(await by(type), 200, type);
});

test('the name of a packing may have capitals, and one that is unknown is refused', async () => {
  const packed = gzipSync('tile'), by = (/** @type {string} */ name) => answered(VALID, (it) => it.writeHead(200, { ...TILE, 'Content-Encoding': name }).end(packed));
  const { statusCode, headers, length } = await by('GZIP');
  assert.deepEqual([statusCode, headers['content-encoding'], length], [200, 'GZIP', packed.length]);
  for (const name of ['zstd', 'constructor', 'gzip, gzip']) assert.equal((await by(name)).statusCode, 500, name);
});

test('what is sent in place of a tile has its own length', async () => {
  /** @type {any} */
  const mending = { mend: async () => ({ outcome: 'mended', tile: Buffer.from('mended'), changed: [{}], fault: null }) };
  const handle = (/** @type {http.ServerResponse} */ it) => it.writeHead(200, { ...TILE, 'Content-Length': 4, ETag: '"1"' }).end('tile');
  const mended = await answered(mending, handle, { mend: true }), refused = await answered(FAULTY, handle);
  assert.deepEqual([mended.statusCode, mended.headers['content-length'], mended.length, mended.headers.etag], [200, '6', 6, undefined]);
  assert.deepEqual([refused.statusCode, refused.headers['content-length'], refused.length], [500, '0', 0]);
});

test('a report that fails is told, and the answer is sent', async (context) => {
  const told = mock.method(console, 'error', () => {});
  context.after(() => told.mock.restore());
  const failure = new Error('the disk is full');
  const report = () => { throw failure; };
  const { statusCode, headers } = await answered(FAULTY, (it) => it.writeHead(200, TILE).end('tile'), { report });
  assert.deepEqual([statusCode, headers['x-tile-fault']], [500, '504']);
  assert.deepEqual(told.mock.calls.map((it) => it.arguments), [[failure]]);
});
