// Bytes packed by gzip (RFC 1952) or by zlib (RFC 1950), by the browser's own streams.

import { digits } from '../tools/text.js';
import { TILE_LIMIT } from './limits.js';
import { Unreadable } from './read.js';

/** @typedef {'gzip'|'zlib'} Packing */

/** @type {Record<Packing, 'gzip'|'deflate'>} what the browser calls them */
const FORMATS = { gzip: 'gzip', zlib: 'deflate' };
const ZLIB_METHOD = 0x78, DICTIONARY_FLAG = 0x20, HEAD_DIVISOR = 31; // (RFC 1950, 2.2: deflate with a window of 32 KiB)

// (Debian's TypeScript has no types for these streams, and older browsers don't have them)
/** @type {{[name: string]: (new (format: 'gzip'|'deflate') => ReadableWritablePair<Uint8Array, Uint8Array>)|undefined}} */
const streams = /** @type {any} */ (globalThis);

/**
 * Whether bytes begin as those of a gzip file do.
 * @param {Uint8Array} bytes
 */
export function isGzip(bytes) {
  return bytes.length > 1 && bytes[0] === 0x1f && bytes[1] === 0x8b;
}

/**
 * Whether bytes begin as a zlib stream does: with its method, no dictionary, and a sum that is right. A tile could begin so too, with a
 * field 15 of its own; no writer of such tiles is known.
 * @param {Uint8Array} bytes
 */
function isZlib(bytes) {
  const [method, flags] = bytes;
  return bytes.length > 1 && method === ZLIB_METHOD && (flags & DICTIONARY_FLAG) === 0 && (method * 256 + flags) % HEAD_DIVISOR === 0;
}

/**
 * How bytes are packed, by how they begin; null for bytes that are taken as they are.
 * @param {Uint8Array} bytes
 * @returns {Packing|null}
 */
export function packingOf(bytes) {
  if (isGzip(bytes)) return 'gzip';
  return isZlib(bytes) ? 'zlib' : null;
}

/**
 * Packed bytes, or as they are where the browser can't pack them.
 * @param {Uint8Array} bytes
 * @param {Packing} [packing]
 * @returns {Promise<Uint8Array>}
 */
export async function pack(bytes, packing = 'gzip') {
  if (!streams.CompressionStream) return bytes;
  const packed = new Blob([bytes]).stream().pipeThrough(new streams.CompressionStream(FORMATS[packing]));
  return new Uint8Array(await new Response(packed).arrayBuffer());
}

/**
 * What packed bytes hold; bytes that aren't packed are returned as they are. It stops at the limit, so a small file can't fill the
 * memory.
 * @param {Uint8Array} bytes
 * @param {number} [limit]
 * @returns {Promise<Uint8Array>}
 */
export async function unpack(bytes, limit = TILE_LIMIT) {
  const packing = packingOf(bytes);
  if (!packing) return bytes;
  if (!streams.DecompressionStream) throw new Unreadable(`this browser can't unpack ${packing} files`);
  const reader = new Blob([bytes]).stream().pipeThrough(new streams.DecompressionStream(FORMATS[packing])).getReader();
  const parts = [];
  let length = 0;
  for (;;) {
    const part = await nextPart(reader, packing);
    if (!part) return joined(parts, length);
    length += part.length;
    if (length > limit) {
      reader.cancel().catch(() => undefined); // (nobody waits for the rest)
      throw new Unreadable(`the ${packing} file unpacks to more than ${digits(limit)} bytes, the limit`);
    }
    parts.push(part);
  }
}

/**
 * @param {ReadableStreamDefaultReader<Uint8Array>} reader
 * @param {Packing} packing
 */
async function nextPart(reader, packing) {
  try {
    return (await reader.read()).value;
  } catch {
    throw new Unreadable(`the ${packing} file is damaged`);
  }
}

/**
 * @param {Uint8Array[]} parts
 * @param {number} length
 */
function joined(parts, length) {
  const whole = new Uint8Array(length);
  let at = 0;
  for (const part of parts) {
    whole.set(part, at);
    at += part.length;
  }
  return whole;
}
