// The tree of a tile's fields (the pattern 'tree view' of the ARIA Authoring Practices). Parts are listed when their field is opened, and
// of many a hundred at a time.

import { element } from '../tools/dom.js';
import { digits } from '../tools/text.js';
import { hasParts, partsOf, wholeOf } from './parts.js';
import { contentText, nameOf } from './words.js';

/** @typedef {import('./parts.js').Part} Part */
/** @typedef {{part: Part, item: HTMLElement, above: Branch|null, group: HTMLElement|null, below: Map<number, Branch>}} Branch a part that is listed; those below it by their indices */

const LISTED = 100; // parts of a part at once

export class FieldTree {
  #host;
  #calls;
  #bytes = new Uint8Array();
  /** @type {WeakMap<Element, Branch>} */
  #branches = new WeakMap();
  /** @type {Branch|null} */
  #root = null;
  /** @type {Branch|null} */
  #chosen = null;

  /**
   * @param {HTMLElement} host
   * @param {{choose: (part: Part) => void, point: (part: Part|null) => void}} calls a part was chosen by the user; one is pointed at
   */
  constructor(host, calls) {
    this.#host = host;
    this.#calls = calls;
    host.addEventListener('click', (event) => this.#clicked(event));
    host.addEventListener('keydown', (event) => this.#pressed(event));
    host.addEventListener('pointerover', (event) => calls.point(this.#branchOf(event.target)?.part ?? null));
    host.addEventListener('pointerleave', () => calls.point(null));
  }

  /** @param {Uint8Array} bytes */
  show(bytes) {
    this.clear();
    this.#bytes = bytes;
    this.#root = this.#branch(wholeOf(bytes), null, 1);
    this.#host.append(this.#root.item);
    this.#open(this.#root, 0);
    this.#mark(this.#root);
  }

  clear() {
    this.#root = null;
    this.#chosen = null;
    this.#bytes = new Uint8Array();
    this.#host.replaceChildren();
  }

  /**
   * Opens what leads to a part, and marks it as the one that is chosen.
   * @param {Part[]} path
   */
  reveal(path) {
    let branch = this.#root;
    for (const { index } of path.slice(1)) {
      if (!branch) return;
      if (!branch.below.has(index) || branch.item.getAttribute('aria-expanded') !== 'true') this.#open(branch, index);
      branch = branch.below.get(index) ?? null;
    }
    if (branch) this.#mark(branch);
  }

  /**
   * Lights up the innermost part of these that is listed; none for no parts.
   * @param {Part[]} path
   */
  light(path) {
    for (const it of this.#host.querySelectorAll('.lit')) it.classList.remove('lit');
    let branch = path.length ? this.#root : null;
    for (const { index } of path.slice(1)) branch = branch?.below.get(index) ?? branch;
    branch?.item.classList.add('lit');
  }

  /**
   * @param {Part} part
   * @param {Branch|null} above
   * @param {number} count of the parts among which it is, also of those that aren't listed
   * @returns {Branch}
   */
  #branch(part, above, count) {
    const content = element('span', { class: 'small' }, contentText(this.#bytes, part));
    const line = element('span', { class: 'field-line' }, element('b', {}, nameOf(part)), ' ', content);
    const isExpanded = hasParts(part) ? 'false' : undefined, place = { 'aria-posinset': part.index + 1, 'aria-setsize': count };
    const item = element('li', { role: 'treeitem', tabindex: -1, 'aria-selected': 'false', 'aria-expanded': isExpanded, ...place, 'data-at': part.at }, line);
    const branch = { part, item, above, group: null, below: new Map() };
    this.#branches.set(item, branch);
    return branch;
  }

  /**
   * Lists the parts of a part, those around an index.
   * @param {Branch} branch
   * @param {number} index
   */
  #open(branch, index) {
    const first = index - (index % LISTED), { parts, count } = partsOf(this.#bytes, branch.part, first, LISTED);
    branch.below = new Map(parts.map((part) => [part.index, this.#branch(part, branch, count)]));
    const items = [...branch.below.values()].map(({ item }) => item), last = first + parts.length;
    if (first > 0) items.unshift(this.#more(branch, `${digits(first)} before`, first - 1));
    if (last < count) items.push(this.#more(branch, `${digits(count - last)} after`, last));
    branch.group?.remove();
    branch.group = element('ul', { role: 'group' }, ...items);
    branch.item.append(branch.group);
    branch.item.setAttribute('aria-expanded', 'true');
  }

  /**
   * A line that leads on to other parts of the same part.
   * @param {Branch} branch
   * @param {string} text
   * @param {number} to the index of the part to which it leads
   */
  #more(branch, text, to) {
    const item = element('li', { role: 'treeitem', tabindex: -1, class: 'more', 'data-to': to }, element('span', { class: 'field-line' }, text));
    this.#branches.set(item, { part: branch.part, item, above: branch, group: null, below: new Map() });
    return item;
  }

  /** @param {Branch} branch */
  #close(branch) {
    branch.item.setAttribute('aria-expanded', 'false');
    branch.group?.remove();
    branch.group = null;
    branch.below = new Map();
  }

  /** @param {Branch} branch */
  #mark(branch) {
    this.#chosen?.item.setAttribute('aria-selected', 'false');
    for (const it of this.#host.querySelectorAll('[tabindex="0"]')) it.setAttribute('tabindex', '-1');
    this.#chosen = branch;
    branch.item.setAttribute('aria-selected', 'true');
    branch.item.setAttribute('tabindex', '0');
    this.#keepInSight(branch.item);
  }

  /**
   * Scrolls the tree, and not the page.
   * @param {HTMLElement} item
   */
  #keepInSight(item) {
    const shown = this.#host.getBoundingClientRect(), line = (item.firstElementChild ?? item).getBoundingClientRect();
    if (line.top < shown.top) this.#host.scrollTop += line.top - shown.top;
    if (line.bottom > shown.bottom) this.#host.scrollTop += line.bottom - shown.bottom;
  }

  /** @param {EventTarget|null} target */
  #branchOf(target) {
    const item = target instanceof Element ? target.closest('[role=treeitem]') : null;
    return item ? this.#branches.get(item) : undefined;
  }

  /**
   * A line was chosen by the user.
   * @param {Branch} branch
   */
  #choose(branch) {
    const { above, item: { dataset: { to } } } = branch;
    if (to !== undefined && above) this.#open(above, Number(to));
    const chosen = (to !== undefined && above?.below.get(Number(to))) || branch;
    this.#mark(chosen);
    chosen.item.focus({ preventScroll: true });
    this.#calls.choose(chosen.part);
  }

  /** @param {MouseEvent} event */
  #clicked(event) {
    const branch = this.#branchOf(event.target);
    if (!branch) return;
    if (branch === this.#chosen && branch.group) this.#close(branch);
    else if (isClosed(branch)) this.#open(branch, 0);
    this.#choose(branch);
  }

  /** @param {KeyboardEvent} event */
  #pressed(event) {
    const branch = this.#branchOf(document.activeElement);
    if (!branch || event.ctrlKey || event.altKey || event.metaKey) return;
    const to = this.#after(event.key, branch);
    if (to === undefined) return;
    event.preventDefault();
    if (to) this.#choose(to);
  }

  /**
   * The line to which a key leads; null where it leads to none, undefined where it isn't the tree's.
   * @param {string} key
   * @param {Branch} branch
   * @returns {Branch|null|undefined}
   */
  #after(key, branch) {
    const lines = [...this.#host.querySelectorAll('[role=treeitem]')], at = lines.indexOf(branch.item);
    const line = (/** @type {number} */ index) => this.#branches.get(lines[index]) ?? null;
    switch (key) {
      case 'ArrowDown': return line(at + 1);
      case 'ArrowUp': return line(at - 1);
      case 'Home': return line(0);
      case 'End': return line(lines.length - 1);
      case 'ArrowLeft': return this.#left(branch);
      case 'ArrowRight': return this.#right(branch);
      case 'Enter': case ' ': return branch;
      default: return undefined;
    }
  }

  /**
   * Closes a line that is open; from any other one it leads to the line above.
   * @param {Branch} branch
   */
  #left(branch) {
    if (!branch.group) return branch.above;
    this.#close(branch);
    return branch;
  }

  /**
   * Opens a line that is closed; from one that is open it leads to its first part.
   * @param {Branch} branch
   * @returns {Branch|null}
   */
  #right(branch) {
    if (!isClosed(branch)) return [...branch.below.values()][0] ?? null;
    this.#open(branch, 0);
    return branch;
  }
}

/** @param {Branch} branch */
function isClosed({ part, group, item }) {
  return hasParts(part) && !group && item.dataset.to === undefined;
}
