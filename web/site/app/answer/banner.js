// The verdict on a file, first of all that is said of it.

import { explainFault } from '../../../../bindings/js/src/words/explain.js';
import { byId, element, prose } from '../tools/dom.js';

/** @typedef {import('../files/checks.js').Entry} Entry */
/** @typedef {import('../files/checks.js').Fault} Fault */
/** @typedef {import('../files/link.js').Profile} Profile */

const CONFIRMED = 'The separate checker confirms this fault.';
const NOT_CONFIRMED = "The separate checker doesn't confirm this fault. That is a mistake of the gate: please report it.";
const NOT_LEAST = "The search for the feature's first fault took too long and was ended, so this may be a later one of that feature.";

/**
 * The verdict in a few words, and a sentence.
 * @param {Entry} entry
 * @param {Profile} profile
 * @returns {{verdict: string, sentence: string}}
 */
export function bannerWords(entry, profile) {
  switch (entry.state) {
    case 'waiting': return { verdict: 'Waiting', sentence: 'Other files are checked first.' };
    case 'checking': return { verdict: 'Checking', sentence: 'The judge is at work. A large tile takes some seconds.' };
    case 'valid': return { verdict: 'Valid', sentence: `The tile keeps every rule of the gate, by the profile ${profile}.` };
    case 'stopped': return { verdict: 'Stopped', sentence: 'The check was stopped before it had an answer.' };
    case 'unreadable': return { verdict: "Couldn't be read", sentence: sentenceOf(entry.reason) };
    default: return wordsOfFault(entry);
  }
}

/** @param {Entry} entry */
function wordsOfFault(entry) {
  const { title, sentence } = explainFault(/** @type {Fault} */ (entry.fault));
  return { verdict: `Not valid: ${title[0].toLowerCase()}${title.slice(1)}`, sentence };
}

/** @param {string} reason */
function sentenceOf(reason) {
  return `${reason[0].toUpperCase()}${reason.slice(1)}.`;
}

/**
 * What bytes are that are no tile, and what to do with them.
 * @param {Entry} entry
 */
function formatParts({ state, format }) {
  return state === 'fault' && format ? [element('b', {}, format.sentence), ' What to do: ', ...prose(format.remedy)] : [];
}

/**
 * What is said of a fault beside itself.
 * @param {Pick<Entry, 'isConfirmed'|'isLeast'>} fault
 */
export function checkerText({ isConfirmed, isLeast }) {
  return `${isConfirmed ? CONFIRMED : NOT_CONFIRMED}${isLeast ? '' : ` ${NOT_LEAST}`}`;
}

/**
 * @param {Entry} entry
 * @param {Profile} profile
 */
export function showBanner(entry, profile) {
  const { verdict, sentence } = bannerWords(entry, profile);
  byId('banner', HTMLElement).dataset.state = entry.state;
  byId('name', HTMLElement).textContent = entry.name;
  byId('verdict', HTMLElement).textContent = verdict;
  byId('code', HTMLElement).textContent = entry.fault && entry.state === 'fault' ? `Code ${entry.fault.code}` : '';
  byId('sentence', HTMLElement).replaceChildren(...prose(sentence));
  byId('format', HTMLElement).replaceChildren(...formatParts(entry));
  byId('checker', HTMLElement).textContent = entry.state === 'fault' ? checkerText(entry) : '';
  byId('again', HTMLElement).hidden = entry.state !== 'stopped' && entry.state !== 'unreadable';
}
