// Which files are listed: all, those with a fault, those with a fault of one code, or those that couldn't be read.

import { element } from '../tools/dom.js';
import { digits } from '../tools/text.js';
import { explainTitle } from './words.js';

/** @typedef {import('./checks.js').Entry} Entry */

const ALL = 'all', FAULTS = 'faults', UNREAD = 'unread';

/**
 * The group of a file: the code of its fault, or that it couldn't be read; empty for any other.
 * @param {Entry} entry
 */
export function groupOf({ state, fault }) {
  if (state === 'fault' && fault) return String(fault.code);
  return state === 'unreadable' ? UNREAD : '';
}

export class FileFilter {
  /** @type {Map<string, {count: number, option: HTMLOptionElement}>} by the group, in the order of the codes */
  #groups = new Map();
  #select;

  /**
   * @param {HTMLSelectElement} select
   * @param {() => void} changed is called where the user chose other files
   */
  constructor(select, changed) {
    this.#select = select;
    select.addEventListener('change', changed);
    this.clear();
  }

  clear() {
    this.#groups.clear();
    this.#select.replaceChildren(element('option', { value: ALL }, 'all files'), element('option', { value: FAULTS }, 'only faults'));
  }

  /**
   * Counts a file that came into a group, or left one.
   * @param {string} group
   * @param {1|-1} by
   */
  count(group, by) {
    if (group === '') return;
    const found = this.#groups.get(group) ?? this.#add(group);
    found.count += by;
    found.option.textContent = `${group === UNREAD ? "couldn't be read" : `${group}: ${explainTitle(Number(group))}`} (${digits(found.count)})`;
    found.option.hidden = found.count === 0;
  }

  /** @param {string} group */
  #add(group) {
    const option = element('option', { value: group }), found = { count: 0, option };
    const [next] = [...this.#groups.keys()].filter((it) => it > group).sort(); // (codes have three digits, and come before words)
    this.#select.insertBefore(option, this.#groups.get(next)?.option ?? null);
    this.#groups.set(group, found);
    return found;
  }

  /**
   * Whether a file of this group is listed.
   * @param {string} group
   */
  shows(group) {
    const { value } = this.#select;
    return value === ALL || value === group || (value === FAULTS && group !== '' && group !== UNREAD);
  }
}
