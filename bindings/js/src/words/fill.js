/**
 * Words of faults.json for a fault or an advice, with the places in them filled. bindings/README.md has the grammar of places.
 *
 * @typedef {{title: string, sentence: string, place: string, meaning: string, cause: string, remedy: string}} Explanation
 * @typedef {{[key: string]: any}} Members the members of a fault's text, or of one advice
 * @typedef {{
 *   counting: string,
 *   scopes: {[scope: string]: string},
 *   fields: {key: string, known: string, unknown: string, names: {[scope: string]: {[number: string]: string}}},
 *   faults: {[code: string]: Explanation},
 *   advice: {[kind: string]: Explanation},
 * }} Words
 */

const PLACE = /\{([a-z.]+)(?:\/([a-z]+))?\}/g;

/**
 * @param {bigint} one
 * @param {bigint} other
 * @returns {bigint} the greatest common divisor, which is not negative
 */
function greatestDivisor(one, other) {
  let [a, b] = [one, other];
  while (b !== 0n) [a, b] = [b, a % b];
  return a < 0n ? -a : a;
}

/**
 * @param {string} above decimal digits
 * @param {string} below decimal digits
 * @returns {string} the fraction in lowest terms, with a minus only in front; a whole number where it is one
 */
export function fractionText(above, below) {
  let [x, w] = [BigInt(above), BigInt(below)];
  if (w === 0n) return `${x}/0`;
  const divisor = greatestDivisor(x, w) * (w < 0n ? -1n : 1n);
  [x, w] = [x / divisor, w / divisor];
  return w === 1n ? String(x) : `${x}/${w}`;
}

/**
 * @template Words
 * @param {{[key: string]: Words}} table
 * @param {string | number} key
 * @returns {Words} TypeError where the table hasn't the key
 */
function wordsUnder(table, key) {
  if (!Object.hasOwn(table, key)) throw new TypeError(`there are no words for ${key}`);
  return table[key];
}

/**
 * @param {Words} words
 * @param {string} scope
 * @param {number} number
 * @returns {string} a field of a message, such as 'field 15 (version)'
 */
function fieldText(words, scope, number) {
  const { key, known, unknown, names } = words.fields;
  if (number === 0) return key;
  const name = wordsUnder(names, scope)[number];
  return (name ? known : unknown).replace('{number}', String(number)).replace('{name}', name ?? '');
}

/**
 * @param {Members} members
 * @param {string} path a key, or keys joined by full stops
 * @returns {any}
 */
function memberAt(members, path) {
  /** @type {any} */
  let it = members;
  for (const key of path.split('.')) it = it?.[key];
  if (it === undefined) throw new TypeError(`the fault has no member ${path}`);
  return it;
}

/**
 * @param {Words} words
 * @param {string} template
 * @param {Members} members
 * @returns {string} the template with each place filled. TypeError where a member is missing.
 */
export function fill(words, template, members) {
  return template.replace(PLACE, (_, name, below) => {
    if (below) return fractionText(memberAt(members, name), memberAt(members, below));
    if (name === 'scope') return fill(words, wordsUnder(words.scopes, memberAt(members, 'scope')), members);
    if (name === 'field') return fieldText(words, memberAt(members, 'scope'), memberAt(members, 'field'));
    return String(memberAt(members, name));
  });
}

/**
 * @param {Words} words
 * @param {Explanation} templates
 * @param {Members} members
 * @returns {Explanation}
 */
function filled(words, templates, members) {
  const { title, sentence, place, meaning, cause, remedy } = templates;
  return { title, sentence: fill(words, sentence, members), place: fill(words, place, members), meaning, cause, remedy };
}

/**
 * @param {Words} words
 * @param {Members} fault
 * @returns {Explanation} TypeError where it is no fault
 */
export function faultInWords(words, fault) {
  return filled(words, wordsUnder(words.faults, fault.code), fault);
}

/**
 * @param {Words} words
 * @param {Members} advice
 * @returns {Explanation} TypeError where it is no advice
 */
export function adviceInWords(words, advice) {
  return filled(words, wordsUnder(words.advice, advice.kind), advice);
}
