/**
 * @param {Document} page
 * @returns {Uint8Array} the module that tools/page wrote into the page, in the element with the id module
 */
export function embeddedModule(page) {
  const text = page.getElementById('module')?.textContent ?? '';
  return Uint8Array.from(atob(text.trim()), (letter) => letter.charCodeAt(0));
}
