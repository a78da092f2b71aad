// What CREATE TABLE and CREATE INDEX of a database of SQLite say, as far as rows are to be found: columns, keys and indexes.

/**
 * `rowId` is the column that stands for the row's id. `keys` are the columns of each automatic index, in order; where there are no row
 * ids, the table itself is in the order of `primary`.
 * @typedef {{columns: string[], rowId: string|null, keys: string[][], primary: string[], hasRowIds: boolean}} TableForm
 */
/** @typedef {{table: string, columns: string[]}} IndexForm no columns where it isn't one of whole columns in rising order over all rows */

const TOKEN = /--[^\n]*|\/\*[^]*?\*\/|"((?:[^"]|"")*)"|`([^`]*)`|\[([^\]]*)\]|'((?:[^']|'')*)'|[\w$\u0080-\uffff]+|[^\s]/g;
const CONSTRAINTS = new Set(['unique', 'primary', 'check', 'foreign']);

/**
 * Words in small letters, names without their quotes, and marks.
 * @param {string} sql
 * @returns {string[]}
 */
function tokensOf(sql) {
  return [...sql.matchAll(TOKEN)].filter(([text]) => !text.startsWith('--') && !text.startsWith('/*'))
    .map(([text, ...names]) => (names.find((name) => name !== undefined) ?? text).toLowerCase());
}

/**
 * What stands in the parentheses that begin first, in parts between its commas, and what stands after them.
 * @param {string[]} tokens
 * @returns {{parts: string[][], rest: string[]}}
 */
function partsOf(tokens) {
  const begin = tokens.indexOf('('), parts = [/** @type {string[]} */ ([])];
  let depth = 1, at = begin + 1;
  for (; at < tokens.length && depth > 0; at += 1) {
    const token = tokens[at];
    depth += token === '(' ? 1 : token === ')' ? -1 : 0;
    if (token === ',' && depth === 1) parts.push([]);
    else if (depth > 0) parts[parts.length - 1].push(token);
  }
  return { parts: begin < 0 ? [] : parts, rest: tokens.slice(at) };
}

/**
 * @param {string} sql
 * @returns {TableForm}
 */
export function tableForm(sql) {
  const { parts, rest } = partsOf(tokensOf(sql));
  /** @type {TableForm} */
  const form = { columns: [], rowId: null, keys: [], primary: [], hasRowIds: !rest.join(' ').includes('without rowid') };
  /** @type {Map<string, string>} */
  const types = new Map();
  for (const part of parts) {
    const words = part[0] === 'constraint' ? part.slice(2) : part;
    if (CONSTRAINTS.has(words[0]) && words.length > 1) addKey(form, types, words, partsOf(words).parts.map(([name]) => name));
    else if (words.length) {
      form.columns.push(words[0]);
      types.set(words[0], words[1] ?? '');
      addKey(form, types, words.slice(1), [words[0]]);
    }
  }
  return form;
}

/**
 * Adds what the words after a column, or of a constraint, say of keys.
 * @param {TableForm} form
 * @param {Map<string, string>} types
 * @param {string[]} words
 * @param {string[]} columns
 */
function addKey(form, types, words, columns) {
  const isPrimary = words.includes('primary'), rising = words.includes('desc') ? [] : columns;
  if (!isPrimary && !words.includes('unique')) return;
  if (isPrimary) form.primary = rising;
  if (isPrimary && !form.hasRowIds) return;
  if (isPrimary && rising.length === 1 && types.get(rising[0]) === 'integer') [form.rowId] = rising;
  // (SQLite makes one index for all keys of the same columns)
  else if (!form.keys.some((key) => key.length && key.join() === rising.join())) form.keys.push(rising);
}

/**
 * The columns of a table's records, in order.
 * @param {TableForm} form
 */
export function recordColumns({ columns, primary, hasRowIds }) {
  return hasRowIds ? columns : [...primary, ...columns.filter((name) => !primary.includes(name))];
}

/**
 * @param {string} sql
 * @returns {IndexForm}
 */
export function indexForm(sql) {
  const tokens = tokensOf(sql), { parts, rest } = partsOf(tokens), table = tokens[tokens.indexOf('(') - 1] ?? '';
  const isPlain = !rest.includes('where') && parts.every((part) => part.length === 1 || (part.length === 2 && part[1] === 'asc'));
  return { table, columns: isPlain ? parts.map(([name]) => name) : [] };
}
