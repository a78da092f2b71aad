// The fields of the tile that is shown beside its bytes, each of which lights up the other. Nothing is read before it is opened.

import { messageOfFault } from '../../../../bindings/js/src/tile/fields.js';
import { RECORD_LIMIT } from '../files/limits.js';
import { byId } from '../tools/dom.js';
import { counted } from '../tools/text.js';
import { ByteRows } from './bytes.js';
import { pathTo, wholeOf } from './parts.js';
import { FieldTree } from './tree.js';
import { pathText, roleText } from './words.js';

/** @typedef {import('../../../../bindings/js/src/picture/types.js').Fault} Fault */
/** @typedef {import('./parts.js').Part} Part */

export class FieldPanel {
  /** @type {Uint8Array|null} of the tile that is shown */
  #tile = null;
  #place = 0; // the byte that is in sight when it is opened
  #isDrawn = false;
  #details = byId('fields', HTMLDetailsElement);
  #says = byId('fields-says', HTMLElement);
  /** @type {FieldTree} */
  #tree = new FieldTree(byId('fields-tree', HTMLElement), {
    choose: (part) => this.#chosen(part),
    point: (part) => this.#bytes.light(part),
  });
  /** @type {ByteRows} */
  #bytes = new ByteRows(byId('bytes', HTMLElement), {
    choose: (place) => this.goTo(place),
    point: (place) => this.#tree.light(this.#tile && place !== null && this.#tile.length <= RECORD_LIMIT ? pathTo(this.#tile, place) : []),
  });

  constructor() {
    this.#details.addEventListener('toggle', () => this.#draw());
    byId('bytes-before', HTMLElement).addEventListener('click', () => this.#turn(-1));
    byId('bytes-after', HTMLElement).addEventListener('click', () => this.#turn(1));
  }

  clear() {
    this.#tile = null;
    this.#isDrawn = false;
    this.#details.hidden = true;
    this.#tree.clear();
    this.#bytes.clear();
    this.#says.textContent = '';
  }

  /**
   * @param {Uint8Array} tile
   * @param {Fault|null} fault whose byte is in sight at first
   */
  show(tile, fault) {
    this.clear();
    this.#tile = tile;
    this.#details.hidden = tile.length === 0;
    this.#place = fault ? byteOf(tile, fault) : 0;
    this.#draw();
  }

  /** @param {Fault} fault */
  goToFault(fault) {
    if (this.#tile) this.goTo(byteOf(this.#tile, fault));
  }

  /** @param {{layer: number, feature: number}} place */
  goToFeature(place) {
    if (this.#tile) this.goTo(beginOf(this.#tile, 'feature', place) ?? 0);
  }

  /**
   * Chooses the innermost part at a byte.
   * @param {number} place
   */
  goTo(place) {
    this.#place = place;
    if (!this.#tile || !this.#isDrawn) return;
    const path = pathTo(this.#tile, place);
    this.#tree.reveal(path);
    this.#mark(path, place);
  }

  #draw() {
    if (!this.#tile || this.#isDrawn || !this.#details.open) return;
    this.#isDrawn = true;
    this.#tree.show(this.#tile);
    this.#bytes.show(this.#tile);
    this.goTo(Math.min(this.#place, this.#tile.length - 1));
  }

  /** @param {Part} part that was chosen in the tree */
  #chosen(part) {
    if (!this.#tile) return;
    const path = pathTo(this.#tile, part.at), depth = path.findIndex((it) => isSame(it, part));
    this.#mark(depth < 0 ? [wholeOf(this.#tile)] : path.slice(0, depth + 1), part.at);
  }

  /**
   * @param {Part[]} path
   * @param {number} place
   */
  #mark(path, place) {
    const part = path[path.length - 1];
    this.#bytes.mark(part, place);
    this.#says.textContent = `Byte ${place}: ${roleText(part, place)}, of ${pathText(path)}, which has ${counted(part.end - part.at, 'byte')}.`;
    this.#showButtons();
  }

  /** @param {1|-1} by */
  #turn(by) {
    this.#bytes.turn(by);
    this.#showButtons();
  }

  #showButtons() {
    const { before, after } = this.#bytes.hasMore;
    byId('bytes-before', HTMLElement).setAttribute('aria-disabled', String(!before));
    byId('bytes-after', HTMLElement).setAttribute('aria-disabled', String(!after));
  }
}

/**
 * @param {Part} one
 * @param {Part} other
 */
function isSame(one, other) {
  return one.at === other.at && one.end === other.end && one.is === other.is && one.number === other.number;
}

/**
 * Where a message begins; null where there is none.
 * @param {Uint8Array} tile
 * @param {'layer'|'feature'} scope
 * @param {{layer: number, feature?: number}} place
 */
function beginOf(tile, scope, place) {
  return messageOfFault(tile, { code: 0, at: 0, field: 0, scope, ...place })?.at ?? null;
}

/**
 * The byte at which a fault is, or where the feature or the layer begins that has it.
 * @param {Uint8Array} tile
 * @param {Fault} fault
 */
function byteOf(tile, fault) {
  if (typeof fault.at === 'number') return Math.min(fault.at, Math.max(0, tile.length - 1));
  const layer = fault.layer ?? fault.first;
  if (typeof layer !== 'number') return 0;
  return (typeof fault.feature === 'number' ? beginOf(tile, 'feature', { layer, feature: fault.feature }) : beginOf(tile, 'layer', { layer })) ?? 0;
}
