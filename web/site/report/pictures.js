// The pictures of faults. Each is drawn when it first comes into view, so a report with many of them opens at once. Before the report
// is printed all are opened and drawn. A browser doesn't wait then for tiles to be unpacked, so that is done soon after the start.

import { isGzip, unpack } from '../app/files/packing.js';
import { LINK_LIMIT } from '../app/files/limits.js';
import { bytesOfBase64, linkOf } from '../app/files/link.js';
import { PicturePanel } from '../app/pictures/panel.js';
import { element } from '../app/tools/dom.js';
import { saveFile } from '../app/tools/hand_over.js';
import { pictureOfFault } from '../../../bindings/js/src/picture/index.js';

/** @typedef {import('../app/files/link.js').Profile} Profile */
/** @typedef {{page: string|null, profile: Profile}} PageData the address of the page that opens tiles, and the run's profile */
/** @typedef {{fault: import('../../../bindings/js/src/picture/index.js').Fault, tile: string, record: import('../../../bindings/js/src/picture/index.js').TileRecord|null}} Found */

const MARGIN = '200px'; // around the window: what comes near is drawn

/** @typedef {{stored: Uint8Array, tile: Uint8Array}} Bytes those of the report, and what they are unpacked */

export class Pictures {
  #page;
  #observer = new IntersectionObserver((entries) => this.#seen(entries), { rootMargin: MARGIN });
  /** @type {Map<HTMLDetailsElement, Bytes>} */
  #unpacked = new Map();
  /** @type {Set<HTMLElement>} the places of pictures that aren't drawn yet */
  #waiting = new Set();
  /** @type {HTMLDetailsElement[]} what was opened to be printed */
  #opened = [];

  /** @param {PageData} page */
  constructor(page) {
    this.#page = page;
  }

  start() {
    for (const details of allDetails()) {
      const host = details.querySelector('.picture');
      if (!(host instanceof HTMLElement)) continue;
      this.#waiting.add(host);
      this.#observer.observe(host);
    }
    addEventListener('hashchange', openTarget);
    addEventListener('beforeprint', () => this.#openAll());
    addEventListener('afterprint', () => this.#closeAgain());
    openTarget();
    this.#unpackAll();
  }

  async #unpackAll() {
    for (const details of allDetails()) {
      await new Promise((resolve) => setTimeout(resolve)); // (what the user does comes first)
      await this.#unpack(details).catch(() => undefined); // (whoever sees the picture is told why)
    }
    document.body.dataset.pictures = 'ready'; // (for a program that prints)
  }

  #openAll() {
    for (const details of allDetails()) {
      if (details.open) continue;
      details.open = true;
      this.#opened.push(details);
    }
    for (const host of [...this.#waiting]) {
      const details = host.closest('details'), bytes = details && this.#unpacked.get(details);
      if (details && bytes) this.#draw(details, host, bytes);
    }
  }

  #closeAgain() {
    for (const details of this.#opened.splice(0)) details.open = false;
  }

  /** @param {IntersectionObserverEntry[]} entries */
  #seen(entries) {
    for (const { target, isIntersecting } of entries) {
      const details = target.closest('details');
      if (!isIntersecting || !details || !(target instanceof HTMLElement)) continue;
      this.#unpack(details)
        .then((bytes) => this.#draw(details, target, bytes))
        .catch((error) => { target.textContent = `The picture can't be drawn: ${error.message}.`; });
    }
  }

  /**
   * @param {HTMLDetailsElement} details
   * @returns {Promise<Bytes>}
   */
  async #unpack(details) {
    const known = this.#unpacked.get(details);
    if (known) return known;
    const stored = bytesOfBase64(foundIn(details).tile);
    const bytes = { stored, tile: isGzip(stored) ? await unpack(stored) : stored };
    this.#unpacked.set(details, bytes);
    return bytes;
  }

  /**
   * @param {HTMLDetailsElement} details
   * @param {HTMLElement} host
   * @param {Bytes} bytes
   */
  #draw(details, host, { stored, tile }) {
    if (!this.#waiting.delete(host)) return;
    this.#observer.unobserve(host);
    const found = foundIn(details);
    const picture = pictureOfFault(found.fault, tile, found.record);
    if (picture) new PicturePanel(host).show(picture);
    else host.textContent = "The tile doesn't have what the fault names.";
    details.querySelector('.buttons')?.append(...this.#buttons(details, found, stored, tile));
  }

  /**
   * What leads out of the report: the page with this tile in it, and the tile as a file.
   * @param {HTMLDetailsElement} details
   * @param {Found} found
   * @param {Uint8Array} stored
   * @param {Uint8Array} tile
   */
  #buttons(details, found, stored, tile) {
    const { page, profile } = this.#page, name = details.dataset.tile;
    const save = element('button', { type: 'button', class: 'quiet', 'aria-label': `Save tile ${name}` }, 'Save the tile');
    save.addEventListener('click', () => saveFile(`${details.dataset.name}.mvt`, 'application/vnd.mapbox-vector-tile', tile));
    if (page === null || stored.length > LINK_LIMIT) return [save];
    const href = page + linkOf(found.tile, profile);
    const attributes = { class: 'open-tile', href, target: '_blank', rel: 'noopener', 'aria-label': `Open tile ${name} in the page` };
    return [element('a', attributes, 'Open this tile in the page'), save];
  }
}

/** @returns {NodeListOf<HTMLDetailsElement>} */
function allDetails() {
  return document.querySelectorAll('details.found');
}

/**
 * What the report has of a fault with a picture.
 * @param {HTMLDetailsElement} details
 * @returns {Found}
 */
function foundIn(details) {
  return JSON.parse(details.querySelector('script')?.text ?? '');
}

/** Opens the picture to which the address leads. */
function openTarget() {
  const target = document.getElementById(location.hash.slice(1));
  if (target instanceof HTMLDetailsElement) {
    target.open = true;
    target.scrollIntoView();
  }
}
