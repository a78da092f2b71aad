/** A folder of tiles by node:http, each judged before it is sent: node http_server.js FOLDER [PORT [mend]] */
import { createReadStream } from 'node:fs';
import { createServer } from 'node:http';
import { join } from 'node:path';
import { loadPool } from 'mvtgate';
import { tileGate } from './tile_gate.js';

const [folder, port = '0', mend] = process.argv.slice(2);
const gate = tileGate(await loadPool(), { mend: mend === 'mend', report: (it) => console.log(JSON.stringify(it)) });

function handle(asked, answer) {
  const [, name] = /^\/((?:[\w-]+\/)*[\w-]+\.mvt(?:\.gz)?)(?:\?|$)/.exec(asked.url) ?? []; // (with no point in it there is no way up)
  if (!name) return answer.writeHead(404).end();
  const headers = { 'Content-Type': 'application/vnd.mapbox-vector-tile', ...(name.endsWith('.gz') ? { 'Content-Encoding': 'gzip' } : {}) };
  return createReadStream(join(folder, name))
    .once('error', () => answer.writeHead(404, { 'Content-Type': 'text/plain' }).end('no such tile'))
    .once('open', function sendFile() { this.pipe(answer.writeHead(200, headers)); });
}

const server = createServer((asked, answer) => gate(asked, answer, () => handle(asked, answer)));
server.listen(Number(port), '127.0.0.1', () => console.log(`http://127.0.0.1:${server.address().port}/`));
