// Elements of the page: found by their identifiers, and made. Texts go in as text alone, so nothing of a tile is read as markup.

/**
 * The element of the page with this identifier, which is of this kind.
 * @template {Element} Kind
 * @param {string} identifier
 * @param {new () => Kind} kind
 * @returns {Kind}
 */
export function byId(identifier, kind) {
  const found = document.getElementById(identifier);
  if (!(found instanceof kind)) throw new Error(`the page has no ${identifier}`);
  return found;
}

/**
 * A new element. An attribute that is true has no value, and one that is false or undefined is left out.
 * @template {keyof HTMLElementTagNameMap} Name
 * @param {Name} name
 * @param {Record<string, string|number|boolean|undefined>} [attributes]
 * @param {...(Node|string)} children
 * @returns {HTMLElementTagNameMap[Name]}
 */
export function element(name, attributes = {}, ...children) {
  const made = document.createElement(name);
  for (const [key, value] of Object.entries(attributes)) {
    if (value !== false && value !== undefined) made.setAttribute(key, value === true ? '' : String(value));
  }
  made.append(...children);
  return made;
}

/**
 * The words of a text, in which names of programs and formats stand between backquotes.
 * @param {string} text
 * @returns {(Node|string)[]}
 */
export function prose(text) {
  return text.split('`').map((part, at) => (at % 2 ? element('code', {}, part) : part));
}

/**
 * A list of terms and what is said of each; rows of which nothing is said are left out.
 * @param {HTMLElement} list
 * @param {[string, string|(Node|string)[]][]} rows
 */
export function fillTerms(list, rows) {
  list.replaceChildren(...rows.flatMap(([term, said]) => {
    const parts = typeof said === 'string' ? [said] : said;
    return parts.length && parts[0] !== '' ? [element('div', {}, element('dt', {}, term), element('dd', {}, ...parts))] : [];
  }));
}
