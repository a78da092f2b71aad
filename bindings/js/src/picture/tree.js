// SVG elements as plain trees, so that pictures need no document: they are written as text or made into elements.

/** @typedef {{name: string, attributes: Record<string, string|number>, children: (Tree|string)[]}} Tree */

const SVG_NAMESPACE = 'http://www.w3.org/2000/svg';

/**
 * @param {string} name
 * @param {Record<string, string|number>} [attributes]
 * @param {(Tree|string)[]} [children]
 * @returns {Tree}
 */
export function tree(name, attributes = {}, children = []) {
  return { name, attributes, children };
}

/**
 * The class attribute of styles, each of which is a class of its own.
 * @param {string} styles with spaces between them
 * @returns {string}
 */
export function classOf(styles) {
  return styles.split(' ').map((style) => `picture-${style}`).join(' ');
}

/**
 * @param {Tree} node
 * @param {Document} document
 * @returns {SVGElement}
 */
export function elementOf(node, document) {
  const element = document.createElementNS(SVG_NAMESPACE, node.name);
  for (const [name, value] of Object.entries(node.attributes)) element.setAttribute(name, String(value));
  for (const child of node.children) element.append(typeof child === 'string' ? child : elementOf(child, document));
  return /** @type {SVGElement} */ (element);
}

/**
 * The text of an SVG file.
 * @param {Tree} node its outermost element
 * @returns {string}
 */
export function fileOf(node) {
  const root = { ...node, attributes: { xmlns: SVG_NAMESPACE, ...node.attributes } };
  return `<?xml version="1.0" encoding="UTF-8"?>\n${textOf(root)}\n`;
}

/**
 * @param {Tree|string} node
 * @returns {string}
 */
function textOf(node) {
  if (typeof node === 'string') return escapeText(node);
  const attributes = Object.entries(node.attributes).map(([name, value]) => ` ${name}="${escapeText(String(value))}"`).join('');
  if (node.children.length === 0) return `<${node.name}${attributes}/>`;
  return `<${node.name}${attributes}>${node.children.map(textOf).join('')}</${node.name}>`;
}

/** @type {Record<string, string>} */
const ESCAPES = { '&': '&amp;', '<': '&lt;', '>': '&gt;', '"': '&quot;' };

/**
 * XML has no way to write most control characters and lone surrogates: they become U+FFFD.
 * @param {string} text
 * @returns {string}
 */
function escapeText(text) {
  return text.replace(/[&<>"]/g, (character) => ESCAPES[character])
    .replace(/[\u0000-\u0008\u000b\u000c\u000e-\u001f\ufffe\uffff]/g, '\ufffd')
    .replace(/[\ud800-\udbff][\udc00-\udfff]|[\ud800-\udfff]/g, (units) => (units.length === 2 ? units : '\ufffd'));
}
