// The list of the files with their verdicts.

import { byId, element } from '../tools/dom.js';
import { Listbox } from '../tools/listbox.js';
import { FileFilter, groupOf } from './filter.js';
import { totalsText, verdictText } from './words.js';

/** @typedef {import('./checks.js').Entry} Entry */

export class FileList {
  /** @type {Map<Entry, {option: HTMLElement, verdict: HTMLElement, index: number, group: string}>} */
  #lines = new Map();
  #filter = new FileFilter(byId('show', HTMLSelectElement), () => this.#showChosen());
  #section = byId('files', HTMLElement);
  #totals = byId('totals', HTMLElement);
  #list = byId('list', HTMLElement);
  #listbox;

  /**
   * @param {{choose: (entry: Entry) => void, enter: () => void}} calls a file was chosen; enter was pressed on it
   */
  constructor({ choose, enter }) {
    this.#listbox = new Listbox(this.#list, { choose: (index) => choose([...this.#lines.keys()][index]), enter });
  }

  /** @param {Entry[]} entries */
  add(entries) {
    for (const entry of entries) {
      const verdict = element('span', { class: 'file-verdict' });
      const option = this.#listbox.add(element('span', { class: 'file-name' }, entry.name), ' ', verdict);
      this.#lines.set(entry, { option, verdict, index: this.#lines.size, group: '' });
      this.update(entry);
    }
    this.#section.hidden = this.#lines.size < 2;
  }

  clear() {
    this.#lines.clear();
    this.#filter.clear();
    this.#listbox.clear();
    this.#section.hidden = true;
  }

  /** @param {Entry} entry */
  update(entry) {
    const line = this.#lines.get(entry);
    if (!line) return;
    line.option.dataset.state = entry.state;
    line.option.dataset.fault = entry.state === 'fault' ? entry.said : '';
    line.verdict.textContent = verdictText(entry);
    const group = groupOf(entry);
    if (group !== line.group) {
      this.#filter.count(line.group, -1);
      this.#filter.count(group, 1);
    }
    line.group = group;
    line.option.hidden = !this.#filter.shows(group);
  }

  #showChosen() {
    for (const { option, group } of this.#lines.values()) option.hidden = !this.#filter.shows(group);
  }

  /**
   * The next file with a fault that is listed, after the last one again the first; null where there is none.
   * @param {Entry|null} from
   * @param {1|-1} step
   * @returns {Entry|null}
   */
  neighbour(from, step) {
    const entries = [...this.#lines.keys()], count = entries.length;
    const begin = from && this.#lines.has(from) ? this.#lines.get(from)?.index ?? 0 : step > 0 ? -1 : count;
    for (let steps = 1; steps <= count; steps += 1) {
      const entry = entries[(begin + step * steps + (steps + 1) * count) % count], line = this.#lines.get(entry);
      if (entry.state === 'fault' && !line?.option.hidden) return entry;
    }
    return null;
  }

  /** @param {import('./checks.js').Counts} counts */
  showTotals(counts) {
    this.#totals.textContent = totalsText(counts);
  }

  /** @param {Entry} entry */
  mark(entry) {
    this.#listbox.mark(this.#lines.get(entry)?.index ?? -1);
  }

  focus() {
    this.#list.focus();
  }
}
