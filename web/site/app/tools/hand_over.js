// What leaves the page on a wish of its user: a text to the clipboard, a file to the disk.

import { element } from './dom.js';

/**
 * Copies a text. Where the browser has no clipboard for this page (as over plain http), by the older command.
 * @param {string} text
 * @returns {Promise<boolean>} whether it was copied
 */
export async function copyText(text) {
  try {
    await navigator.clipboard.writeText(text);
    return true;
  } catch {
    return copyBySelection(text);
  }
}

/**
 * @param {string} text
 */
function copyBySelection(text) {
  const before = document.activeElement;
  const area = element('textarea', { class: 'away', 'aria-hidden': 'true', readonly: true });
  area.value = text;
  document.body.append(area);
  area.select();
  const copied = document.execCommand('copy');
  area.remove();
  if (before instanceof HTMLElement) before.focus();
  return copied;
}

/**
 * Has the browser save a text or bytes as a file.
 * @param {string} name
 * @param {string} type
 * @param {string|Uint8Array|Blob} content
 */
export function saveFile(name, type, content) {
  const address = URL.createObjectURL(new Blob([content], { type }));
  const link = element('a', { href: address, download: name });
  document.body.append(link);
  link.click();
  link.remove();
  setTimeout(() => URL.revokeObjectURL(address), 10000); // the browser reads it after this turn
}
