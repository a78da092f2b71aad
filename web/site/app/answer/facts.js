// The words for a fault and for advice, and what a check took.

import { explainAdvice, explainFault } from '../../../../bindings/js/src/words/explain.js';
import { byId, element, fillTerms, prose } from '../tools/dom.js';
import { counted, digits, shortSize, sizeText, timeText } from '../tools/text.js';

/** @typedef {import('../files/checks.js').Entry} Entry */
/** @typedef {import('../files/checks.js').Fault} Fault */

/** How many pieces of advice are listed. */
const LISTED = 50;

/**
 * @param {string} text of a fault
 * @param {Fault} fault its members
 */
export function showFacts(text, fault) {
  const { place, meaning, cause, remedy } = explainFault(fault);
  fillTerms(byId('facts', HTMLElement), [
    ['Place', place],
    ['What it means', prose(meaning)],
    ['Cause', prose(cause)],
    ['What to do', prose(remedy)],
  ]);
  byId('said', HTMLElement).replaceChildren(...breakable(text));
}

/**
 * Adds where the fault is on the earth, where that is known.
 * @param {string} text
 */
export function showPlace(text) {
  if (text) byId('facts', HTMLElement).append(element('div', {}, element('dt', {}, 'Longitude, latitude'), element('dd', {}, text)));
}

/**
 * A text of JSON that may be broken after each comma.
 * @param {string} text
 */
function breakable(text) {
  return text.split(/(?<=,)/).flatMap((part) => [part, element('wbr')]);
}

/** @param {Entry} entry */
export function showMeasures(entry) {
  const unpacked = sizeText(entry.size);
  byId('size', HTMLElement).textContent = entry.isPacked ? `${unpacked}, unpacked from ${sizeText(entry.file.size)}` : unpacked;
  byId('time', HTMLElement).textContent = timeText(entry.milliseconds);
  byId('memory', HTMLElement).textContent = shortSize(entry.memory);
  byId('advice-summary', HTMLElement).textContent = '';
  byId('advice', HTMLElement).hidden = true;
}

/** @param {{advice: string|null}} advised */
export function showAdvice({ advice }) {
  const all = advice === null ? [] : JSON.parse(advice).advice;
  byId('advice-summary', HTMLElement).textContent = advice === null ? 'none, since the bytes are no tile' : adviceSummary(all.length);
  byId('advice', HTMLElement).hidden = all.length === 0;
  byId('advice-list', HTMLElement).replaceChildren(...all.slice(0, LISTED).map(adviceItem));
}

/** @param {number} count */
function adviceSummary(count) {
  if (count === 0) return 'none';
  return counted(count, 'remark') + (count > LISTED ? `, of which ${digits(LISTED)} are listed` : '');
}

/** @param {{[key: string]: any}} advice */
function adviceItem(advice) {
  const { title, sentence, cause, remedy } = explainAdvice(advice);
  return element('li', {}, element('h4', {}, title), element('p', {}, ...prose(sentence)),
    element('p', { class: 'small' }, 'Cause: ', ...prose(cause), ' What to do: ', ...prose(remedy)));
}
