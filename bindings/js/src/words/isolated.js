/**
 * Names among other words. A name of letters that run from right to left, or with marks that turn the direction of text (Unicode
 * Standard Annex 9), would else turn what stands around it.
 */

const ISOLATE = '\u2068', END = '\u2069';

/** Letters from right to left, and marks of direction. */
const TURNS = /[\u0590-\u08ff\u200e\u200f\u202a-\u202e\u2066-\u2069\ufb1d-\ufdff\ufe70-\ufefc\u{10800}-\u{10fff}\u{1e800}-\u{1efff}]/u;

/** What ends a paragraph, and with it each isolate. */
const PARAGRAPH_ENDS = /[\n\r\u001c-\u001e\u0085\u2029]/g;

const ISOLATES = /[\u2066-\u2069]/g;

/**
 * A name as one that may stand in a sentence: what turns the direction in it ends with it. Most names are returned as they are.
 * @param {string} name
 * @returns {string}
 */
export function isolated(name) {
  return TURNS.test(name) ? ISOLATE + balanced(name.replace(PARAGRAPH_ENDS, ' ')) + END : name;
}

/**
 * A text each of whose isolates ends in it, without ends of others.
 * @param {string} text
 */
function balanced(text) {
  let open = 0;
  const closed = text.replace(ISOLATES, (mark) => {
    if (mark === END && open === 0) return '';
    open += mark === END ? -1 : 1;
    return mark;
  });
  return closed + END.repeat(open);
}
