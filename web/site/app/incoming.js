// The ways on which tiles come into the page: a choice, a drop, a paste, a link.

import { gatherChosen, gatherDropped } from './files/gather.js';
import { readLink } from './files/link.js';
import { bytesOfText } from './files/pasted.js';
import { Unreadable } from './files/read.js';
import { byId } from './tools/dom.js';

/** @typedef {import('./files/gather.js').Source} Source */
/** @typedef {import('./files/link.js').Profile} Profile */

/**
 * What is done with that which comes in.
 * @typedef {object} Receiver
 * @property {(sources: Source[]) => void} take
 * @property {(profile: Profile) => void} setProfile
 * @property {(error: unknown, name: string) => void} refuse
 */

// (so it is in Chromium)
const NO_FOLDER = "a page that was opened from a disk can't read a folder that is dropped; use 'Choose a folder'";
const UNREAD_FOLDER = "the browser can't read a part of it; use 'Choose a folder'";
const NO_LINK = 'it is no link with a tile, which stands after #tile=, nor a tile in hexadecimal or base64';

/** @param {Receiver} receiver */
export function receiveFiles(receiver) {
  for (const identifier of ['file', 'folder']) {
    const input = byId(identifier, HTMLInputElement);
    input.addEventListener('change', () => {
      if (input.files) receiver.take(gatherChosen(input.files));
      input.value = ''; // so that the same file can be chosen again
    });
  }
  receiveDrops(receiver);
  document.addEventListener('paste', (event) => {
    if (takesText(event.target) || !event.clipboardData) return;
    const text = event.clipboardData.getData('text/plain'), hasFiles = [...event.clipboardData.items].some(({ kind }) => kind === 'file');
    if (text && receiveText(receiver, text)) return;
    // (some systems put the names of copied files beside them as a text, and spreadsheets a picture beside a text)
    if (text && !hasFiles) receiver.refuse(new Unreadable(NO_LINK), 'pasted text');
    else takeTransfer(receiver, event.clipboardData);
  });
}

/**
 * Whether what is pasted goes into an element. (In Chromium radios and choosers of files are asked too, which may have the focus.)
 * @param {EventTarget|null} element
 */
function takesText(element) {
  return element instanceof HTMLTextAreaElement || (element instanceof HTMLInputElement && ['text', 'search'].includes(element.type));
}

/**
 * @param {Receiver} receiver
 * @param {string} text that was pasted
 * @returns {boolean} whether a tile, or what is meant as one, stands in it
 */
function receiveText(receiver, text) {
  if (receiveLink(receiver, text.slice(text.indexOf('#') + 1), 'pasted link')) return true;
  const bytes = bytesOfText(text);
  if (bytes) receiver.take([{ name: 'pasted tile', file: new Blob([bytes]) }]);
  return bytes !== null;
}

/** @param {Receiver} receiver */
function receiveDrops(receiver) {
  const mark = (/** @type {boolean} */ isOver) => document.body.classList.toggle('over', isOver);
  document.addEventListener('dragover', (event) => {
    if (!event.dataTransfer?.types.includes('Files')) return;
    event.preventDefault();
    mark(true);
  });
  document.addEventListener('dragleave', (event) => {
    if (!event.relatedTarget) mark(false);
  });
  document.addEventListener('drop', (event) => {
    if (!event.dataTransfer?.types.includes('Files')) return;
    event.preventDefault();
    mark(false);
    takeTransfer(receiver, event.dataTransfer);
  });
}

/**
 * @param {Receiver} receiver
 * @param {DataTransfer} transfer
 */
function takeTransfer(receiver, transfer) {
  const reason = location.protocol === 'file:' ? NO_FOLDER : UNREAD_FOLDER;
  gatherDropped(transfer).then(receiver.take, () => receiver.refuse(new Unreadable(reason), 'dropped folder'));
}

/** @param {Receiver} receiver */
export function receiveLinks(receiver) {
  const look = () => receiveLink(receiver, location.hash, 'tile of the link');
  addEventListener('hashchange', look);
  document.addEventListener('click', (event) => {
    const link = event.target instanceof Element ? event.target.closest('a') : null;
    // (a link that leads to where the page is already changes no address)
    if (link && link.hash === location.hash && !event.ctrlKey && !event.metaKey && !event.shiftKey) look();
  });
  look();
}

/**
 * @param {Receiver} receiver
 * @param {string} fragment
 * @param {string} name
 * @returns {boolean} whether a tile, or what is meant as one, stands in it
 */
function receiveLink(receiver, fragment, name) {
  try {
    const link = readLink(fragment);
    if (!link) return false;
    receiver.setProfile(link.profile);
    receiver.take([{ name, file: new Blob([link.bytes]) }]);
  } catch (error) {
    receiver.refuse(error, name);
  }
  return true;
}
