// Names among other words. (The characters are those of Unicode Standard Annex 9.)
import assert from 'node:assert/strict';
import { test } from 'node:test';
import { isolated } from '../src/words/isolated.js';

const FSI = '\u2068', PDI = '\u2069', LRI = '\u2066', OVERRIDE = '\u202e', ARABIC = 'شارع', HEBREW = 'רחוב';

test('a name that runs from left to right is returned as it is', () => {
  for (const name of ['', 'roads', 'Straße 5, "x"', '道路', 'Улица', 'name\nof two lines', '🗺']) assert.equal(isolated(name), name);
});

test('a name that runs from right to left, or has a mark of direction, is isolated', () => {
  for (const name of [ARABIC, HEBREW, `${HEBREW} 5`, `a${OVERRIDE}b`, '\u200f', '\u202aa\u202c', '\u{10840}']) {
    assert.equal(isolated(name), FSI + name + PDI);
  }
});

test('an isolate of a name ends in it', () => {
  assert.equal(isolated(`a${LRI}b`), `${FSI}a${LRI}b${PDI}${PDI}`);
  assert.equal(isolated(`a${LRI}b${PDI}c`), `${FSI}a${LRI}b${PDI}c${PDI}`);
});

test('an end of an isolate that a name does not begin is left out', () => {
  assert.equal(isolated(`${PDI}a${OVERRIDE}b`), `${FSI}a${OVERRIDE}b${PDI}`);
  assert.equal(isolated(`${LRI}a${PDI}${PDI}${OVERRIDE}b`), `${FSI}${LRI}a${PDI}${OVERRIDE}b${PDI}`);
});

test('an end of a paragraph becomes a space, since it ends isolates', () => {
  for (const end of ['\n', '\r', '\u001c', '\u001d', '\u001e', '\u0085', '\u2029']) {
    assert.equal(isolated(`a${end}${OVERRIDE}b`), `${FSI}a ${OVERRIDE}b${PDI}`);
  }
});
