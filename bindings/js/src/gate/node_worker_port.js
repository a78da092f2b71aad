/** A worker of Node as one of a browser, as far as remote.js uses it. */
import { Worker } from 'node:worker_threads';

const SCRIPT = new URL('./node_worker.js', import.meta.url);

export class NodeWorker {
  /** @type {((event: {data: any}) => void) | null} */
  onmessage = null;
  /** @type {((event: {message: string}) => void) | null} */
  onerror = null;
  #worker = new Worker(SCRIPT, { execArgv: [] }); // (those of the process may be for its own script alone)
  #asked = 0; // calls that have no answer yet

  constructor() {
    this.#worker.on('message', (data) => {
      this.#asked -= 1;
      if (this.#asked === 0) this.#worker.unref();
      this.onmessage?.({ data });
    });
    this.#worker.on('error', ({ message }) => this.onerror?.({ message }));
    this.#worker.on('exit', () => this.onerror?.({ message: 'the worker ended' })); // (by itself, with no error)
    this.#worker.unref();
  }

  /**
   * The process goes on as long as a call has no answer, and no longer.
   * @param {any} message
   * @param {any[]} moved
   */
  postMessage(message, moved) {
    this.#worker.postMessage(message, moved);
    this.#asked += 1;
    this.#worker.ref();
  }

  terminate() {
    this.#worker.terminate();
  }
}
