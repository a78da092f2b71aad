// Rows of bytes in hexadecimal, with offsets and ASCII; fields as coloured spans with their names, and the fault's bytes marked.

import { tree } from '../tree.js';

/** @typedef {import('../tree.js').Tree} Tree */
/** @typedef {import('../../tile/fields.js').Message} Message */
/**
 * Bytes from `at` to before `end` that belong together: a field, a number of a packed list, or the field key and the length of a
 * message (`outer`).
 * @typedef {{at: number, end: number, label: string, says: string, kind: 'field'|'outer'|'fault'}} Span
 */
/** @typedef {{message: Message, at: number, faultEnd: number, spans: Span[]}} Content */
/** @typedef {{columns: number, cell: number, left: number, ascii: number, first: number}} Layout `first` is the first row that is shown */

const ROW = 44, TOP = 30, SIDE = 10, LINE = 24;
const LETTER = 9, LABEL_LETTER = 6.3; // pixels, about
const ROWS_BEFORE = 6, ROWS_AFTER = 3;
const COLOURS = 4;

/**
 * @param {Uint8Array} bytes
 * @param {Content} content
 * @returns {import('../types.js').Strip}
 */
export function byteStrip(bytes, content) {
  return (width) => {
    const layout = layoutFor(width, content.at);
    const last = Math.floor(Math.min(Math.max(bytes.length - 1, content.at), content.at + ROWS_AFTER * layout.columns) / layout.columns);
    const rows = Array.from({ length: last - layout.first + 1 }, (_, k) => layout.first + k);
    return { height: TOP + rows.length * ROW + SIDE, nodes: [...header(layout), ...rows.flatMap((row) => rowNodes(row, layout, bytes, content))] };
  };
}

/**
 * @param {number} width
 * @param {number} at
 * @returns {Layout}
 */
function layoutFor(width, at) {
  const left = Math.max(48, String(at).length * LETTER + 28);
  const isWide = width >= left + 16 * 26 + 12 + 16 * LETTER + SIDE;
  const columns = isWide ? 16 : 8;
  const cell = Math.max(20, Math.min(30, Math.floor((width - left - columns * LETTER - 12 - SIDE) / columns)));
  return { columns, cell, left, ascii: left + columns * cell + 12, first: Math.max(0, Math.floor(at / columns) - ROWS_BEFORE) };
}

/**
 * The columns' numbers, which add up with a row's to an offset.
 * @param {Layout} layout
 * @returns {Tree[]}
 */
function header({ columns, cell, left }) {
  const place = (/** @type {number} */ column) => ({ x: left + (column + 0.5) * cell, y: 18, 'text-anchor': 'middle' });
  return Array.from({ length: columns }, (_, k) => tree('text', { class: 'picture-span-faint', ...place(k) }, [`+${k}`]));
}

/**
 * @param {number} row
 * @param {Layout} layout
 * @param {Uint8Array} bytes
 * @param {Content} content
 * @returns {Tree[]}
 */
function rowNodes(row, layout, bytes, content) {
  const { message, at, faultEnd, spans } = content;
  const begin = row * layout.columns, places = Array.from({ length: layout.columns }, (_, k) => begin + k);
  const fields = spans.filter(({ kind }) => kind === 'field');
  return [
    ...rectangle(message.begin, message.end, row, layout, { class: 'picture-message' }, 0),
    tree('text', { class: 'picture-code-faint', x: layout.left - 12, y: top(row, layout) + 17, 'text-anchor': 'end' }, [String(begin)]),
    ...spans.flatMap((span) => spanNodes(span, row, layout, span.kind === 'outer' ? 'outer' : String((fields.indexOf(span) % COLOURS) + 1))),
    ...spanNodes({ at, end: faultEnd, label: '', says: '', kind: 'fault' }, row, layout, 'fault'),
    ...places.filter((place) => place < bytes.length || place === at).flatMap((place) => byteNode(place, layout, bytes, content)),
  ];
}

/**
 * @param {number} row
 * @param {Layout} layout
 * @returns {number}
 */
function top(row, layout) {
  return TOP + (row - layout.first) * ROW;
}

/**
 * The part of some bytes that is in a row.
 * @param {number} from
 * @param {number} to
 * @param {number} row
 * @param {Layout} layout
 * @param {Record<string, string|number>} attributes
 * @param {number} inset
 * @returns {Tree[]}
 */
function rectangle(from, to, row, layout, attributes, inset) {
  const begin = Math.max(from, row * layout.columns), end = Math.min(to, (row + 1) * layout.columns);
  if (begin >= end) return [];
  return [tree('rect', { ...attributes, x: layout.left + (begin - row * layout.columns) * layout.cell + inset, y: top(row, layout) + inset,
    width: (end - begin) * layout.cell - 2 * inset, height: ROW - 4 - 2 * inset, rx: inset * 3 })];
}

/**
 * @param {Span} span
 * @param {number} row
 * @param {Layout} layout
 * @param {string} style
 * @returns {Tree[]}
 */
function spanNodes(span, row, layout, style) {
  /** @type {Record<string, string|number>} */
  const attributes = { class: `picture-field-${style}` };
  if (span.kind === 'field') Object.assign(attributes, { 'data-role': 'field', 'data-offset': span.at });
  const parts = rectangle(span.at, span.end, row, layout, attributes, 1);
  const begin = row * layout.columns, isFirst = span.at >= begin || row === layout.first;
  if (parts.length === 0 || !isFirst) return parts;
  const from = Math.max(span.at, begin), to = Math.min(span.end, begin + layout.columns);
  const letters = Math.floor(((to - from) * layout.cell - 6) / LABEL_LETTER);
  const label = span.label.length <= letters ? span.label : letters >= 3 ? `${span.label.slice(0, letters - 1)}…` : '';
  if (label) {
    const x = layout.left + (from - begin) * layout.cell + 4;
    parts.push(tree('text', { class: span.kind === 'outer' ? 'picture-span-faint' : 'picture-span', x, y: top(row, layout) + 34 }, [label]));
  }
  return parts;
}

/**
 * @param {number} place
 * @param {Layout} layout
 * @param {Uint8Array} bytes
 * @param {Content} content
 * @returns {Tree[]}
 */
function byteNode(place, layout, bytes, { message, at }) {
  const column = place % layout.columns, x = layout.left + column * layout.cell, y = top(Math.floor(place / layout.columns), layout);
  const isFault = place === at, isIn = place >= message.begin && place < message.end;
  const style = isIn || isFault ? 'picture-code' : 'picture-code-faint';
  const isByte = place < bytes.length, byte = bytes[place];
  return [tree('g', { 'data-role': isFault ? 'fault-byte' : 'byte', 'data-offset': place }, [
    ...(isFault ? [tree('rect', { class: 'picture-cell-fault', x: x + 1.5, y: y + 1.5, width: layout.cell - 3, height: LINE - 2, rx: 3 })] : []),
    ...(isFault && !isIn ? [tree('text', { class: 'picture-span-fault', x: x + layout.cell / 2, y: y + 36, 'text-anchor': 'middle' }, ['end'])] : []),
    tree('text', { class: style, x: x + layout.cell / 2, y: y + 17, 'text-anchor': 'middle' }, [isByte ? byte.toString(16).padStart(2, '0') : '']),
    ...(isByte ? [tree('text', { class: style, x: layout.ascii + column * LETTER, y: y + 17 }, [characterOf(byte)])] : []),
  ])];
}

/**
 * @param {number} byte
 * @returns {string} its ASCII character, or a dot
 */
function characterOf(byte) {
  return byte > 32 && byte < 127 ? String.fromCharCode(byte) : '·';
}
