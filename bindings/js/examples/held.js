/** A response of node:http whose body is kept back, where it is a tile. */

const TILE_TYPES = /^application\/(vnd\.mapbox-vector-tile|(x-)?protobuf)\b/i;
const HELD = ['writeHead', 'flushHeaders', 'write', 'end'];

export class Held {
  /** The whole body of a tile, null where it is too large. It never comes for other responses, which are sent as they are written. */
  body;
  #asked;
  #answer;
  #limit;
  #own;
  #parts = [];
  #length = 0;
  #resolve;
  #ended;

  constructor(asked, answer, limit) {
    this.body = new Promise((resolve) => { this.#resolve = resolve; });
    [this.#asked, this.#answer, this.#limit] = [asked, answer, limit];
    this.#own = Object.fromEntries(HELD.map((name) => [name, answer[name]]));
    answer.writeHead = (...given) => this.#writeHead(...given);
    answer.flushHeaders = () => this.#flushHeaders();
    answer.write = (...given) => this.#write(...given);
    answer.end = (...given) => this.#end(...given);
  }

  /** Sends another body in the place of the one that was kept. */
  send(body) {
    this.#letGo();
    this.#answer.end(body, this.#ended);
  }

  #letGo() {
    Object.assign(this.#answer, this.#own);
  }

  #isTile() {
    const { method } = this.#asked, { statusCode } = this.#answer;
    return method !== 'HEAD' && statusCode === 200 && TILE_TYPES.test(String(this.#answer.getHeader('content-type') ?? ''));
  }

  #writeHead(status, ...rest) {
    this.#answer.statusCode = status;
    if (typeof rest[0] === 'string') [this.#answer.statusMessage] = rest;
    const headers = rest.find((it) => typeof it === 'object') ?? {};
    for (const [name, value] of Array.isArray(headers) ? pairsOf(headers) : Object.entries(headers)) this.#answer.setHeader(name, value);
    return this.#answer;
  }

  #flushHeaders() {
    if (this.#isTile()) return;
    this.#letGo();
    this.#answer.flushHeaders();
  }

  #write(part, ...rest) {
    if (!this.#isTile()) {
      this.#letGo();
      return this.#answer.write(part, ...rest);
    }
    this.#keep(part, rest[0]);
    const written = rest.find((it) => typeof it === 'function');
    if (written) process.nextTick(written);
    return true;
  }

  #end(...given) {
    if (!this.#isTile()) {
      this.#letGo();
      return this.#answer.end(...given);
    }
    const [part, encoding] = given;
    if (part && typeof part !== 'function') this.#keep(part, encoding);
    this.#ended = given.find((it) => typeof it === 'function');
    Object.assign(this.#answer, { write: () => false, end: () => this.#answer });
    this.#resolve(this.#length > this.#limit ? null : Buffer.concat(this.#parts));
    return this.#answer;
  }

  #keep(part, encoding) {
    const bytes = typeof part === 'string' ? Buffer.from(part, typeof encoding === 'string' ? encoding : 'utf8') : Buffer.from(part);
    this.#length += bytes.length;
    if (this.#length <= this.#limit) this.#parts.push(bytes);
  }
}

/** The headers of a list of names and values in turn, in which a name may stand more than once, as Set-Cookie does. */
function pairsOf(list) {
  const pairs = new Map();
  for (let at = 0; at < list.length; at += 2) {
    const key = list[at].toLowerCase(), [, ...values] = pairs.get(key) ?? [];
    pairs.set(key, [list[at], ...values, list[at + 1]].flat());
  }
  return [...pairs.values()].map(([name, ...values]) => [name, values.length === 1 ? values[0] : values]);
}
