/**
 * @returns {() => Worker} makes workers from a text, since a page that was opened as a file may load no script of a worker
 */
export function workersOfPage() {
  const script = URL.createObjectURL(new Blob([WORKER_SCRIPT], { type: 'text/javascript' }));
  return () => new Worker(script);
}
