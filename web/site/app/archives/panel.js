// The archive that is open: a grid of its tiles by zoom, from which tiles are picked to be checked.

import { reasonOf } from '../files/checks.js';
import { verdictText } from '../files/words.js';
import { byId, element } from '../tools/dom.js';
import { counted } from '../tools/text.js';
import { Grid } from './grid.js';
import { openArchive } from './open.js';
import { Picks } from './picks.js';
import { atZoom, isIn, middlePlace, movedBy, nearest, placeOfText, placeText, placesIn, windowAround } from './window.js';

/** @typedef {import('../files/checks.js').Entry} Entry */
/** @typedef {import('./open.js').Archive} Archive */
/** @typedef {import('./open.js').Place} Place */
/** @typedef {import('./window.js').Window} Window */
/** @typedef {{add: (entries: Entry[]) => void, choose: (entry: Entry) => void, tell: (sentence: string) => void}} Calls */
/** @typedef {{archive: Archive, name: string, zooms: number[], picks: Picks}} Opened */

const SIDES = { 'archive-west': [-1, 0], 'archive-north': [0, -1], 'archive-south': [0, 1], 'archive-east': [1, 0] };

export class ArchivePanel {
  /** @type {Opened|null} */
  #opened = null;
  /** @type {Window} */
  #window = { zoom: 0, left: 0, top: 0, side: 1 };
  /** @type {Place} */
  #cursor = { zoom: 0, column: 0, row: 0 };
  /** @type {Map<string, Place>} the tiles in the window, by their names */
  #present = new Map();
  /** @type {Entry|null} */
  #shown = null;
  #turns = 0; // each window that is shown has its own
  #calls;
  #section = byId('archive', HTMLElement);
  #zoom = byId('archive-zoom', HTMLSelectElement);
  #place = byId('archive-place', HTMLInputElement);
  #check = byId('archive-check', HTMLButtonElement);
  #grid = new Grid(byId('grid', HTMLElement), (place) => this.#lookOf(place), {
    move: (place) => this.#move(place),
    open: (place) => this.#try(() => this.#pick(place)),
  });

  /** @param {Calls} calls */
  constructor(calls) {
    this.#calls = calls;
    this.#zoom.addEventListener('change', () => this.#try(() => this.#goToZoom(Number(this.#zoom.value))));
    this.#onClick('archive-in', () => this.#step(1));
    this.#onClick('archive-out', () => this.#step(-1));
    this.#onClick('archive-check', () => this.#pickAll());
    this.#onClick('archive-go', () => this.#go());
    this.#onClick('archive-close', async () => this.#leave());
    for (const [identifier, [across, down]] of Object.entries(SIDES)) this.#onClick(identifier, () => this.#pan(across, down));
    this.#place.addEventListener('keydown', (event) => {
      if (event.key === 'Enter') this.#try(() => this.#go());
    });
  }

  /**
   * @param {string} identifier of a button
   * @param {() => Promise<void>} act
   */
  #onClick(identifier, act) {
    byId(identifier, HTMLButtonElement).addEventListener('click', () => this.#try(act));
  }

  /** @param {() => Promise<void>} act what it can't do is told */
  #try(act) {
    act().catch((error) => this.#calls.tell(`The archive couldn't be read: ${reasonOf(error)}.`));
  }

  /**
   * Opens an archive in place of the one that is open.
   * @param {import('./open.js').Kind} kind
   * @param {import('../files/gather.js').Source} source
   * @param {string} note what is said beside its name
   */
  async open(kind, { name, file }, note) {
    const archive = await openArchive(kind, file), zooms = await archive.zooms();
    this.close();
    this.#opened = { archive, name, zooms, picks: new Picks(archive, name) };
    this.#section.hidden = false;
    byId('archive-name', HTMLElement).textContent = name;
    byId('archive-note', HTMLElement).textContent = [note, archive.note].filter(Boolean).join(' ');
    this.#zoom.replaceChildren(...zooms.map((zoom) => element('option', { value: zoom }, String(zoom))));
    await this.#goToMiddle(zooms[0]);
    this.#grid.focus();
  }

  close() {
    this.#turns += 1;
    this.#opened = null;
    this.#section.hidden = true;
    this.#place.value = '';
  }

  /** Closes the archive on the user's wish. The button that had the focus is gone then. */
  #leave() {
    this.close();
    byId('file', HTMLInputElement).focus();
    this.#calls.tell('The archive is closed.');
  }

  /** Forgets which tiles were picked. */
  forget() {
    if (!this.#opened) return;
    this.#opened.picks.clear();
    this.#grid.show(this.#window, this.#cursor);
  }

  /** @param {Entry|null} entry that is shown now */
  mark(entry) {
    const changed = [this.#shown, entry];
    this.#shown = entry;
    for (const it of changed) if (it) this.update(it);
  }

  /** @param {Entry} entry whose state changed */
  update({ place }) {
    if (place?.archive === this.#opened?.name && place && isIn(this.#window, place)) this.#grid.update(place);
  }

  /**
   * @param {Place} place
   * @returns {import('./grid.js').Look}
   */
  #lookOf(place) {
    const entry = this.#opened?.picks.entryOf(place), reason = this.#opened?.picks.reasonOf(place);
    if (entry) return { state: entry.state, says: verdictText(entry), isShown: entry === this.#shown };
    if (reason) return { state: 'unreadable', says: `couldn't be read: ${reason}`, isShown: false };
    return { isShown: false, ...(this.#present.has(placeText(place)) ? { state: 'tile', says: 'not checked' } : { state: 'empty', says: 'no tile' }) };
  }

  /**
   * Shows a window, with the cursor at a tile, or at the nearest one to it that there is.
   * @param {Window} window
   * @param {Place} cursor
   * @param {'exact'|'nearest'|'some'} how whether the cursor stays where no tile is; by 'some' nothing is shown where the window has none
   * @returns {Promise<boolean>} whether it is shown, or no longer wanted
   */
  async #show(window, cursor, how) {
    const opened = this.#opened;
    if (!opened) return true;
    this.#turns += 1;
    const turn = this.#turns, present = await opened.archive.present(placesIn(window));
    if (turn !== this.#turns) return true;
    if (how === 'some' && !present.length) return false;
    this.#window = window;
    this.#present = new Map(present.map((place) => [placeText(place), place]));
    this.#cursor = how === 'exact' ? cursor : nearest(present, cursor) ?? cursor;
    this.#grid.show(window, this.#cursor);
    this.#showControls(opened);
    return true;
  }

  /** @param {Opened} opened */
  #showControls({ zooms }) {
    const { zoom, left, top, side } = this.#window, count = this.#present.size, last = 2 ** zoom - side;
    const leads = { 'archive-west': left > 0, 'archive-north': top > 0, 'archive-south': top < last, 'archive-east': left < last,
      'archive-in': zoom < zooms[zooms.length - 1], 'archive-out': zoom > zooms[0], 'archive-check': count > 0 };
    for (const [identifier, does] of Object.entries(leads)) byId(identifier, HTMLElement).setAttribute('aria-disabled', String(!does));
    this.#zoom.value = String(zoom);
    byId('archive-range', HTMLElement).textContent = `Columns ${left} to ${left + side - 1}, rows ${top} to ${top + side - 1}.`;
    this.#check.textContent = count ? `Check the ${counted(count, 'tile')} in the grid` : 'No tile is in the grid';
  }

  /** @param {Place} place */
  #move(place) {
    this.#cursor = place;
    if (isIn(this.#window, place)) {
      this.#grid.mark(place);
      this.#grid.focus();
    } else this.#try(async () => void await this.#show(windowAround(place), place, 'exact'));
  }

  /**
   * @param {number} across
   * @param {number} down
   */
  async #pan(across, down) {
    const half = Math.ceil(this.#window.side / 2), window = movedBy(this.#window, across * half, down * half);
    const cursor = isIn(window, this.#cursor) ? this.#cursor : { zoom: window.zoom, column: window.left + half, row: window.top + half };
    await this.#show(window, cursor, 'nearest');
  }

  /** @param {1|-1} by */
  async #step(by) {
    const zooms = this.#opened?.zooms ?? [], zoom = zooms[zooms.indexOf(this.#window.zoom) + by];
    if (zoom !== undefined) await this.#goToZoom(zoom);
  }

  /**
   * Shows the same part of the earth at another zoom; where no tile is there, the middle of that zoom's tiles.
   * @param {number} zoom
   */
  async #goToZoom(zoom) {
    const place = atZoom(this.#cursor, zoom);
    if (!(await this.#show(windowAround(place), place, 'some'))) await this.#goToMiddle(zoom);
  }

  /**
   * Shows a window in the middle of the tiles of a zoom: around one of them, moved as long as more come into sight.
   * @param {number} zoom
   */
  async #goToMiddle(zoom) {
    const archive = this.#opened?.archive, middle = await archive?.middle(zoom);
    if (!archive || !middle) return;
    let around = { zoom, ...middle }, present = await archive.present(placesIn(windowAround(around)));
    for (let count = 0; count < present.length; ) {
      count = present.length;
      const next = middlePlace(present), more = await archive.present(placesIn(windowAround(next)));
      if (more.length > count) [around, present] = [next, more];
    }
    await this.#show(windowAround(around), around, 'nearest');
  }

  /** Goes to the tile whose place was typed, and opens it. */
  async #go() {
    const place = placeOfText(this.#place.value);
    if (!place) return this.#calls.tell('The place of a tile is its zoom, column and row, such as 14/8802/5373.');
    await this.#show(windowAround(place), place, 'exact');
    await this.#pick(place);
  }

  /**
   * Opens a tile.
   * @param {Place} place
   */
  async #pick(place) {
    const opened = this.#opened, added = await opened?.picks.pick(place).finally(() => this.#grid.update(place));
    if (!opened || opened !== this.#opened) return;
    const known = opened.picks.entryOf(place);
    if (added) this.#calls.add([added]);
    else if (known) this.#calls.choose(known);
    else this.#calls.tell(`The archive has no tile ${placeText(place)}.`);
  }

  /** Opens all tiles in the grid that weren't picked before. Those that can't be read are marked in it. */
  async #pickAll() {
    const opened = this.#opened, places = [...this.#present.values()];
    const { entries, unread } = (await opened?.picks.pickAll(places)) ?? { entries: [], unread: 0 };
    if (!opened || opened !== this.#opened) return;
    for (const place of places) this.#grid.update(place);
    if (entries.length) this.#calls.add(entries);
    if (unread) this.#calls.tell(`${counted(unread, 'tile')} in the grid couldn't be read.`);
    else if (!entries.length) this.#calls.tell(places.length ? 'All tiles in the grid are checked.' : 'No tile is in the grid.');
  }
}
