// A list of which one line is chosen, by a click or by keys (the pattern 'listbox' of the ARIA Authoring Practices): the list has
// the focus, and names the chosen line.

import { element } from './dom.js';

const PAGE = 10; // lines

export class Listbox {
  /** @type {HTMLLIElement[]} */
  #options = [];
  #chosen = -1;
  #list;
  #choose;

  /**
   * @param {HTMLElement} list
   * @param {{choose: (index: number) => void, enter?: () => void}} calls: a line was chosen by the user; enter was pressed on it
   */
  constructor(list, { choose, enter }) {
    this.#list = list;
    this.#choose = choose;
    list.setAttribute('role', 'listbox');
    list.tabIndex = 0;
    list.addEventListener('click', (event) => this.#clicked(event));
    list.addEventListener('keydown', (event) => {
      if (event.key === 'Enter' && this.#chosen >= 0) enter?.();
      else this.#pressed(event);
    });
  }

  /**
   * Adds a line with these parts at the end.
   * @param {...(Node|string)} parts
   * @returns {HTMLLIElement}
   */
  add(...parts) {
    const option = element('li', { role: 'option', id: `${this.#list.id}-${this.#options.length}`, 'aria-selected': 'false' }, ...parts);
    this.#options.push(option);
    this.#list.append(option);
    return option;
  }

  clear() {
    this.#options = [];
    this.#chosen = -1;
    this.#list.replaceChildren();
    this.#list.removeAttribute('aria-activedescendant');
  }

  /**
   * Marks a line as the chosen one; none for -1.
   * @param {number} index
   */
  mark(index) {
    this.#options[this.#chosen]?.setAttribute('aria-selected', 'false');
    this.#chosen = index;
    const option = this.#options[index];
    if (!option) return this.#list.removeAttribute('aria-activedescendant');
    option.setAttribute('aria-selected', 'true');
    this.#list.setAttribute('aria-activedescendant', option.id);
    this.#keepInSight(option);
  }

  /**
   * Scrolls the list, and not the page.
   * @param {HTMLElement} option
   */
  #keepInSight(option) {
    const [shown, line] = [this.#list.getBoundingClientRect(), option.getBoundingClientRect()];
    if (line.top < shown.top) this.#list.scrollTop += line.top - shown.top;
    if (line.bottom > shown.bottom) this.#list.scrollTop += line.bottom - shown.bottom;
  }

  /** @param {MouseEvent} event */
  #clicked(event) {
    const option = event.target instanceof Element ? event.target.closest('[role=option]') : null;
    const index = this.#options.findIndex((it) => it === option);
    if (index >= 0) this.#chosenByUser(index);
  }

  /**
   * Keys go over lines that are hidden.
   * @param {KeyboardEvent} event
   */
  #pressed(event) {
    const seen = this.#options.filter((option) => !option.hidden), last = seen.length - 1;
    const index = indexAfter(event.key, seen.indexOf(this.#options[this.#chosen]), last);
    if (index === null || last < 0 || event.ctrlKey || event.altKey || event.metaKey) return;
    event.preventDefault();
    this.#chosenByUser(this.#options.indexOf(seen[Math.min(Math.max(index, 0), last)]));
  }

  /** @param {number} index */
  #chosenByUser(index) {
    if (index === this.#chosen) return;
    this.mark(index);
    this.#choose(index);
  }
}

/**
 * The line to which a key leads, or null where it leads to none.
 * @param {string} key
 * @param {number} chosen
 * @param {number} last
 */
function indexAfter(key, chosen, last) {
  switch (key) {
    case 'ArrowDown': return chosen + 1;
    case 'ArrowUp': return chosen - 1;
    case 'PageDown': return chosen + PAGE;
    case 'PageUp': return chosen - PAGE;
    case 'Home': return 0;
    case 'End': return last;
    default: return null;
  }
}
