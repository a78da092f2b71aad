/**
 * @param {import('../types.js').Source} source
 * @returns {Promise<WebAssembly.Module>} the gate's module, compiled
 */
export async function moduleOf(source) {
  const found = await source;
  if (found instanceof WebAssembly.Module) return found;
  if (typeof Response === 'undefined' || !(found instanceof Response)) return WebAssembly.compile(/** @type {BufferSource} */ (found));
  if (!found.ok) throw new TypeError(`the module couldn't be fetched from ${found.url}: ${found.status}`);
  return WebAssembly.compile(await found.arrayBuffer());
}
