// What is pasted, and links in the page, over stand-ins for its elements.
import assert from 'node:assert/strict';
import { beforeEach, test } from 'node:test';
import { setImmediate } from 'node:timers/promises';

const TILE = '#tile=GgA&profile=feature', OTHER = '#tile=GgB';

class Stand extends EventTarget {
  hash = '';
  closest() {
    return this;
  }
}
const page = new Stand(), location = { hash: '', protocol: 'https:' };
Object.assign(globalThis, {
  Element: Stand, HTMLInputElement: class extends Stand {}, HTMLTextAreaElement: class extends Stand {}, location,
  document: Object.assign(page, { getElementById: () => new HTMLInputElement(), body: { classList: { toggle: () => {} } } }), addEventListener: () => {},
});
const { receiveFiles, receiveLinks } = await import('../../site/app/incoming.js');

/** @type {string[]} what came in, and what was refused */
const came = [], reasons = /** @type {string[]} */ ([]); // why it was refused
const receiver = {
  take: (/** @type {import('../../site/app/files/gather.js').Source[]} */ sources) => came.push(...sources.map(({ name }) => name)),
  setProfile: (/** @type {string} */ profile) => came.push(profile),
  refuse: (/** @type {any} */ { message }, /** @type {string} */ name) => {
    came.push(`no ${name}`);
    reasons.push(message);
  },
};
receiveFiles(receiver);
receiveLinks(receiver);
beforeEach(() => { came.length = 0; });

/** @param {string} text @param {...string} files their names */
async function paste(text, ...files) {
  return pasteInto(page, text, ...files);
}

/** @param {object} target @param {string} text @param {...string} files */
async function pasteInto(target, text, ...files) {
  const items = [...(text ? [{ kind: 'string' }] : []), ...files.map((name) => ({ kind: 'file', webkitGetAsEntry: () => null, getAsFile: () => ({ name }) }))];
  const event = Object.assign(new Event('paste'), { clipboardData: { getData: () => text, items } });
  Object.defineProperty(event, 'target', { value: target });
  page.dispatchEvent(event);
  await setImmediate();
  return came.splice(0);
}

test('what is pasted is a text with a tile, or else files', async () => {
  assert.deepEqual(await paste('1a00'), ['pasted tile']);
  assert.deepEqual(await paste(`https://example.org/${TILE}`), ['feature', 'pasted link']);
  assert.deepEqual(await paste('some words'), ['no pasted text']);
  assert.deepEqual(await paste('', 'a.mvt', 'b.mvt'), ['a.mvt', 'b.mvt']);
  // (the names of files beside them; a picture of cells beside their text)
  assert.deepEqual(await paste('/home/a.mvt', 'a.mvt'), ['a.mvt']);
  assert.deepEqual(await paste('1a00', 'cells.png'), ['pasted tile']);
});

test('why a folder that is dropped cannot be read', async () => {
  const reader = { readEntries: (/** @type {unknown} */ _, /** @type {(error: Error) => void} */ failed) => failed(new Error('denied')) };
  const item = { kind: 'file', getAsFile: () => null, webkitGetAsEntry: () => ({ isDirectory: true, createReader: () => reader }) };
  for (const [protocol, reason] of /** @type {[string, RegExp][]} */ ([['https:', /can't read a part of it/], ['file:', /opened from a disk/]])) {
    location.protocol = protocol;
    page.dispatchEvent(Object.assign(new Event('drop', { cancelable: true }), { dataTransfer: { types: ['Files'], items: [item] } }));
    await setImmediate();
    assert.deepEqual(came.splice(0), ['no dropped folder']);
    assert.match(reasons.pop() ?? '', reason);
  }
});

test('what is pasted into a field for texts stays there, and no other element takes it', async () => {
  const input = (/** @type {string} */ type) => Object.assign(new HTMLInputElement(), { type });
  for (const type of ['radio', 'file', 'checkbox']) assert.deepEqual(await pasteInto(input(type), '1a00'), ['pasted tile'], type);
  for (const element of [input('text'), input('search'), new HTMLTextAreaElement()]) assert.deepEqual(await pasteInto(element, '1a00'), []);
});

/** @param {string} hash of the link @param {object} keys that are held */
function click(hash, keys = {}) {
  const link = Object.assign(new Stand(), { hash }), event = Object.assign(new Event('click'), keys);
  Object.defineProperty(event, 'target', { value: link });
  page.dispatchEvent(event);
  return came.splice(0);
}

test('a link to the tile that the address has already brings it once more', () => {
  location.hash = TILE;
  assert.deepEqual(click(TILE), ['feature', 'tile of the link']);
  assert.deepEqual(click(OTHER), []); // (the address changes then)
  assert.deepEqual(click(TILE, { ctrlKey: true }), []); // (which opens it elsewhere)
  location.hash = '';
  assert.deepEqual(click(''), []);
});
