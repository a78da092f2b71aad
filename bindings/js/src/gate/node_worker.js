/** The script of a worker of Node: see remote.js. */
import { parentPort } from 'node:worker_threads';
import { server } from './serve.js';

const port = /** @type {import('node:worker_threads').MessagePort} */ (parentPort);
port.on('message', server((reply, transfer) => port.postMessage(reply, transfer)));
