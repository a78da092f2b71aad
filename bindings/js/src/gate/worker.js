/** The script of a worker of browsers: see remote.js. The page has it as a text. */
import { server } from './serve.js';

const serve = server((reply, transfer) => postMessage(reply, { transfer }));
addEventListener('message', ({ data }) => serve(data));
