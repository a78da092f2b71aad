/** A folder of tiles by Express, each judged before it is sent: node express_server.js FOLDER [PORT [mend]] */
import { createRequire } from 'node:module';
import { loadPool } from 'mvtgate';
import { tileGate } from './tile_gate.js';

const express = createRequire(import.meta.url)('express'); // (which also finds it by NODE_PATH)
const [folder, port = '0', mend] = process.argv.slice(2);

const app = express();
app.use(tileGate(await loadPool(), { mend: mend === 'mend', report: (it) => console.log(JSON.stringify(it)) }));
app.use(express.static(folder, {
  setHeaders(answer, path) {
    answer.setHeader('Content-Type', 'application/vnd.mapbox-vector-tile');
    if (path.endsWith('.gz')) answer.setHeader('Content-Encoding', 'gzip');
  },
}));
const server = app.listen(Number(port), '127.0.0.1', () => console.log(`http://127.0.0.1:${server.address().port}/`));
