/**
 * Judges the tiles that a server answers with, before they are sent.
 *
 *     app.use(tileGate(pool));                                                                // Express, connect
 *     createServer((asked, answer) => gate(asked, answer, () => handle(asked, answer)));     // node:http
 *
 * A valid tile is sent as it is, and so is all that is no tile. One with a fault is mended, or answered by 500; where there is no
 * verdict, by 503.
 */
import { promisify } from 'node:util';
import zlib from 'node:zlib';
import { Held } from './held.js';

const PACKINGS = new Map(Object.entries({
  gzip: { unpack: promisify(zlib.gunzip), pack: promisify(zlib.gzip) },
  deflate: { unpack: promisify(zlib.inflate), pack: promisify(zlib.deflate) },
  br: { unpack: promisify(zlib.brotliDecompress), pack: promisify(zlib.brotliCompress) },
  identity: { unpack: async (bytes) => bytes, pack: async (bytes) => bytes },
}));

const DEFAULTS = {
  profile: 'polygon',
  mend: false, // whether tiles whose polygons break the rules are mended
  drop: false, // whether features that can't be mended are left out
  limit: 16 << 20, // bytes of a tile, packed or not
  milliseconds: 10000, // that the gate may take for a tile
  report: () => {}, // is called with {url, outcome, fault, changed} for each tile that isn't sent as it was
};

/**
 * @param {import('mvtgate').Pool} pool
 * @param {Partial<typeof DEFAULTS>} [options]
 */
export function tileGate(pool, options = {}) {
  const chosen = { ...DEFAULTS, ...options };
  return (asked, answer, next) => {
    delete asked.headers.range; // (a part of a tile can't be judged)
    const held = new Held(asked, answer, chosen.limit);
    held.body.then(async (body) => {
      const found = await judged(pool, body, String(answer.getHeader('content-encoding') ?? 'identity').toLowerCase(), chosen);
      try {
        if (found.outcome !== 'valid') chosen.report({ url: asked.url, outcome: found.outcome, fault: found.fault, changed: found.changed });
      } finally {
        send(held, answer, found);
      }
    }).catch((error) => console.error(error)); // (of a report that failed; the server goes on)
    next();
  };
}

const refusal = (status, outcome, fault = null) => ({ status, outcome, fault, body: null, changed: [] });

/** What becomes of a body; null is one that is too large. */
async function judged(pool, body, encoding, options) {
  const packing = PACKINGS.get(encoding);
  if (!packing) return refusal(500, `packed by ${encoding}`);
  const tile = body && await packing.unpack(body, { maxOutputLength: options.limit }).catch(() => null);
  if (!tile) return refusal(500, "couldn't be unpacked");
  try {
    return await verdict(pool, tile, body, packing, options);
  } catch (error) {
    return refusal(503, error.message); // (out of memory, or out of time)
  }
}

async function verdict(pool, tile, body, packing, { profile, mend, drop, milliseconds }) {
  const signal = AbortSignal.timeout(milliseconds);
  if (!mend) {
    const fault = await pool.check(tile, { profile, quick: true, signal });
    return fault ? refusal(500, 'refused', fault) : { status: 200, outcome: 'valid', fault, body, changed: [] };
  }
  const { outcome, tile: mended, fault, changed } = await pool.mend(tile, { profile, drop, signal });
  if (outcome === 'refused') return refusal(500, outcome, fault);
  return { status: 200, outcome, fault, body: outcome === 'valid' ? body : await packing.pack(mended), changed };
}

function send(held, answer, { status, outcome, fault, body, changed }) {
  if (outcome !== 'valid') {
    for (const name of ['etag', 'last-modified']) answer.removeHeader(name);
    if (answer.hasHeader('content-length')) answer.setHeader('Content-Length', body?.length ?? 0);
  }
  if (outcome === 'mended') answer.setHeader('X-Tile-Mended', String(changed.length));
  if (body === null) {
    for (const name of ['content-type', 'content-encoding']) answer.removeHeader(name);
    [answer.statusCode, answer.statusMessage] = [status, ''];
    answer.setHeader('Cache-Control', 'no-store');
    if (fault) answer.setHeader('X-Tile-Fault', String(fault.code));
    if (status === 503) answer.setHeader('Retry-After', '10');
  }
  held.send(body ?? '');
}
