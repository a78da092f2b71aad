// What tools/page puts in place when it builds the page.

/** The script of worker.js with all that it imports. */
declare const WORKER_SCRIPT: string;
