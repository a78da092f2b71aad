// The page: what comes in is checked, listed and shown.

import { embeddedModule } from '../gate/embedded.js';
import { workersOfPage } from '../gate/workers.js';
import { RemoteGate, Stopped } from '../../../bindings/js/src/gate/remote.js';
import { explainFormat } from '../../../bindings/js/src/words/explain.js';
import { isolated } from '../../../bindings/js/src/words/isolated.js';
import { Answer } from './answer/answer.js';
import { mayBeArchive, sorted } from './archives/open.js';
import { ArchivePanel } from './archives/panel.js';
import { Checks, newEntry, reasonOf } from './files/checks.js';
import { FileList } from './files/list.js';
import { totalsText, verdictText } from './files/words.js';
import { receiveFiles, receiveLinks } from './incoming.js';
import { mendAll } from './mend/all.js';
import { csvOf, geojsonOf, jsonOf } from './results/write.js';
import { Status } from './status.js';
import { byId } from './tools/dom.js';
import { copyText, saveFile } from './tools/hand_over.js';
import { counted } from './tools/text.js';

/** @typedef {import('./files/checks.js').Entry} Entry */
/** @typedef {import('./files/gather.js').Source} Source */
/** @typedef {import('./files/link.js').Profile} Profile */

class Page {
  /** @type {Entry|null} the only file that came in, to whose answer the focus moves */
  #awaited = null;
  #gate;
  #checks;
  #answer;
  #gateOfAll;
  /** @type {AbortController|null} ends the mending of all files that goes on */
  #mendingAll = null;
  #status = new Status(() => this.#stop());
  #list = new FileList({ choose: (entry) => this.#chosenByUser(entry), enter: () => this.#answer.focus() });
  #archive = new ArchivePanel({
    add: (entries) => this.#add(entries, false),
    choose: (entry) => this.#chosenByUser(entry),
    tell: (sentence) => this.#tell(sentence),
  });

  /**
   * @param {() => RemoteGate} newGate
   */
  constructor(newGate) {
    this.#gate = newGate(); // of the checks, which may be stopped
    this.#gateOfAll = onceAsked(newGate); // which mends all files, and may be stopped too
    this.#checks = new Checks(this.#gate, (entry) => this.#changed(entry), explainFormat);
    this.#answer = new Answer(this.#checks, newGate(), onceAsked(newGate));
  }

  async start() {
    byId('idle', HTMLElement).hidden = true; // (it says that no script runs)
    this.#connectControls();
    this.#connectReceiver();
    try {
      const version = await this.#gate.ready;
      // (files may have come in meanwhile, and links that were refused)
      if (document.body.dataset.state === 'loading') this.#status.say('ready', `Ready: version ${version} of the gate.`);
    } catch (error) {
      this.#status.say('failed', `The gate can't run in this browser (${error instanceof Error ? error.message : error}).`);
    }
  }

  #connectReceiver() {
    const receiver = {
      take: (/** @type {Source[]} */ sources) => this.#take(sources),
      setProfile: (/** @type {Profile} */ profile) => this.#setProfile(profile),
      refuse: (/** @type {unknown} */ error, /** @type {string} */ name) => this.#tell(`The ${name} couldn't be read: ${reasonOf(error)}.`),
    };
    receiveFiles(receiver);
    receiveLinks(receiver);
  }

  #connectControls() {
    for (const radio of document.querySelectorAll('input[name=profile]')) {
      radio.addEventListener('change', () => this.#setProfile(chosenProfile()));
    }
    byId('clear', HTMLElement).addEventListener('click', () => this.#clear());
    byId('again', HTMLElement).addEventListener('click', () => this.#again());
    byId('mend-all', HTMLElement).addEventListener('click', () => this.#mendAll());
    byId('save-csv', HTMLElement).addEventListener('click', () => saveFile('results.csv', 'text/csv', csvOf(this.#checks.entries)));
    byId('save-json', HTMLElement).addEventListener('click', () => saveFile('results.jsonl', 'application/jsonl', jsonOf(this.#checks.entries)));
    byId('save-geojson', HTMLElement).addEventListener('click', () => this.#saveGeojson());
    document.addEventListener('keydown', (event) => this.#pressed(event));
    this.#copyOnClick('copy-fault', () => this.#answer.said);
    this.#copyOnClick('copy-link', () => location.href.replace(/#.*/, '') + this.#answer.link);
    this.#setProfile(chosenProfile()); // (a browser may restore it when the page is loaded again)
  }

  /**
   * @param {string} identifier of a button
   * @param {() => string} text that it copies
   */
  #copyOnClick(identifier, text) {
    const button = byId(identifier, HTMLButtonElement);
    const words = button.textContent;
    button.addEventListener('click', async () => {
      button.textContent = (await copyText(text())) ? 'Copied' : "The browser doesn't allow it";
      this.#status.announce(`${button.textContent}.`);
      setTimeout(() => { button.textContent = words; }, 2000);
    });
  }

  /** @param {Source[]} sources */
  async #take(sources) {
    if (!sources.length) return this.#tell('No file there is named like a tile.');
    if (!sources.some(mayBeArchive)) return this.#addFiles(sources);
    this.#status.say('working', 'Looking at the files ..');
    const { archives, tiles } = await sorted(sources);
    if (tiles.length) this.#addFiles(tiles);
    if (archives.length) await this.#openArchive(archives[0], archives.length - 1);
  }

  /** @param {Source[]} sources */
  #addFiles(sources) {
    this.#add(sources.map(({ name, file }) => newEntry(name, file)), true);
  }

  /**
   * @param {Entry[]} entries
   * @param {boolean} isFocused whether the focus moves to them
   */
  #add(entries, isFocused) {
    this.#awaited = isFocused && entries.length === 1 ? entries[0] : null;
    this.#list.add(entries);
    this.#choose(entries[0]);
    if (isFocused && entries.length > 1) this.#list.focus();
    this.#checks.add(entries);
  }

  /**
   * @param {{source: Source, kind: import('./archives/open.js').Kind}} archive
   * @param {number} others that came with it
   */
  async #openArchive({ source, kind }, others) {
    const name = isolated(source.name), note = others ? `${counted(others, 'other archive')} came with it. One is open at a time.` : '';
    try {
      await this.#archive.open(kind, source, note);
      this.#tell(`${name} is open: pick a tile in the grid.`);
    } catch (error) {
      this.#tell(`${name} couldn't be opened: ${reasonOf(error)}.`);
    }
  }

  /** @param {Profile} profile */
  #setProfile(profile) {
    byId(profile, HTMLInputElement).checked = true;
    this.#checks.setProfile(profile);
  }

  /**
   * Says something of what came in, while files may be checked.
   * @param {string} sentence
   */
  #tell(sentence) {
    if (this.#checks.isBusy) this.#status.announce(sentence);
    else this.#status.say('ready', sentence);
  }

  /** @param {Entry} entry */
  #chosenByUser(entry) {
    this.#choose(entry);
    this.#sayState(entry);
  }

  /** @param {Entry} entry */
  #choose(entry) {
    this.#list.mark(entry);
    this.#archive.mark(entry);
    this.#answer.show(entry);
    document.title = `${isolated(entry.name)}: ${verdictText(entry)} - mvtgate`;
  }

  /** @param {Entry} entry whose state changed */
  #changed(entry) {
    this.#list.update(entry);
    this.#archive.update(entry);
    this.#list.showTotals(this.#checks.counts);
    byId('mending-all', HTMLElement).hidden = this.#checks.counts.fault === 0;
    if (entry === this.#answer.entry) this.#choose(entry);
    this.#sayState(entry);
    if (entry !== this.#awaited || entry.state === 'waiting' || entry.state === 'checking') return;
    this.#awaited = null;
    this.#answer.focus();
  }

  /** @param {Entry} entry */
  #sayState(entry) {
    const name = isolated(entry.name);
    const { entries, counts, isBusy } = this.#checks;
    const isOne = entries.length === 1;
    if (isBusy) this.#status.say('working', isOne ? `Checking ${name} ..` : `Checking ${counted(entries.length, 'file')} ..`);
    else this.#status.say('done', isOne ? `${name}: ${verdictText(entry)}.` : totalsText(counts));
  }

  #saveGeojson() {
    const { text, count } = geojsonOf(this.#checks.entries);
    if (count) saveFile('faults.geojson', 'application/geo+json', text);
    else this.#tell("No name of a file with a fault ends with z/x/y, so it isn't known where the tiles are.");
  }

  /**
   * F8 leads to the next file with a fault, and with Shift to the previous one.
   * @param {KeyboardEvent} event
   */
  #pressed(event) {
    if (event.key !== 'F8' || event.ctrlKey || event.altKey || event.metaKey) return;
    event.preventDefault();
    const found = this.#list.neighbour(this.#answer.entry, event.shiftKey ? -1 : 1);
    if (found && found !== this.#answer.entry) this.#chosenByUser(found);
    else this.#status.announce(found ? 'No other file has a fault.' : 'No file has a fault.');
  }

  /** Mends all files with a fault, and has the browser save those that were mended. */
  async #mendAll() {
    if (this.#mendingAll) return;
    const { signal } = this.#mendingAll = new AbortController(), drop = byId('drop-all', HTMLInputElement).checked;
    const say = (/** @type {string} */ sentence) => this.#status.say('working', sentence);
    try {
      const { archive, sentence } = await mendAll(this.#checks, this.#gateOfAll(), drop, say, signal);
      if (archive) saveFile('mended.zip', archive.type, archive);
      this.#tell(sentence);
    } catch (error) {
      this.#tell(`No archive was made: ${reasonOf(error)}.`);
    }
    this.#mendingAll = null;
  }

  #stop() {
    this.#awaited = null;
    if (this.#mendingAll) {
      this.#mendingAll.abort(new Stopped());
      this.#gateOfAll().stop();
    }
    this.#checks.stop();
    byId('verdict', HTMLElement).focus(); // (the button that had it is gone)
  }

  #again() {
    if (!this.#answer.entry) return;
    this.#awaited = this.#answer.entry;
    this.#checks.again(this.#answer.entry);
  }

  #clear() {
    this.#checks.clear();
    this.#list.clear();
    this.#archive.forget();
    this.#answer.show(null);
    this.#status.say('ready', 'All files are removed.');
    byId('file', HTMLInputElement).focus();
  }
}

/** @returns {Profile} */
function chosenProfile() {
  return byId('feature', HTMLInputElement).checked ? 'feature' : 'polygon';
}

/**
 * @template It
 * @param {() => It} make
 * @returns {() => It} the same one at each call, made at the first
 */
function onceAsked(make) {
  /** @type {It|undefined} */
  let made;
  return () => (made ??= make());
}

const module = embeddedModule(document), newWorker = workersOfPage();
new Page(() => new RemoteGate(module, newWorker)).start();
