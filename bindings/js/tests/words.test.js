import assert from 'node:assert/strict';
import { execFileSync } from 'node:child_process';
import { readFileSync } from 'node:fs';
import { test } from 'node:test';
import { adviceInWords, faultInWords, fractionText } from '../src/words/fill.js';
import { SAMPLES, TOP, YES } from './samples.js';

/** @type {import('../src/words/fill.js').Words} */
const words = JSON.parse(readFileSync(`${TOP}bindings/faults.json`, 'utf8'));

/** Faults of the sample tiles, and wire faults of each code and scope by fields with and without a name. */
function faultTexts() {
  const wire = [];
  for (const scope of [{ scope: 'tile' }, { scope: 'layer', layer: 1 }, { scope: 'value', layer: 1, value: 2 }, { scope: 'feature', layer: 1, feature: 2 }]) {
    for (let code = 101; code <= 111; code++) {
      for (let field = 0; field < 18; field++) wire.push(JSON.stringify({ at: 7, code, field, ...scope }));
    }
  }
  const lines = SAMPLES.flatMap((it) => [...it.lines.polygon, ...it.lines.feature]).filter((line) => line !== YES);
  return [...new Set([...wire, ...lines])];
}

// The words of the Python package for texts of faults and of advice, which come in a line each.
const PYTHON = `
import json, sys
import mvtgate
for line in sys.stdin:
    it = json.loads(line)
    it = mvtgate.Advice(**it) if "kind" in it else mvtgate.Fault.from_text(line)
    print(json.dumps([it.title, it.sentence, it.place, mvtgate.explain(it)]))
`;

/**
 * @param {string[]} texts
 * @returns {string[][]} title, sentence, place and the whole explanation of each
 */
function wordsOfPython(texts) {
  const env = { ...process.env, PYTHONPATH: `${TOP}bindings/python/src`, PYTHONDONTWRITEBYTECODE: '1' };
  const said = execFileSync('python3', ['-c', PYTHON], { env, input: texts.join('\n'), encoding: 'utf8', maxBuffer: 1 << 28 });
  return said.trimEnd().split('\n').map((line) => JSON.parse(line));
}

test('the words are those of all packages', () => {
  execFileSync(`${TOP}bindings/js/make_words`, ['--check']);
});

test('each fault has the words of the Python package', () => {
  const texts = faultTexts();
  const said = wordsOfPython(texts);
  const codes = new Set(texts.map((text) => String(JSON.parse(text).code)));
  assert.deepEqual([...codes].sort(), Object.keys(words.faults).sort());
  texts.forEach((text, at) => {
    const { title, sentence, place, cause, remedy } = faultInWords(words, JSON.parse(text));
    const [wanted, ...others] = [said[at].slice(0, 3), said[at][3].split('\n')];
    assert.deepEqual([title, sentence, place], wanted, text);
    assert.deepEqual(others[0].slice(2, 4), [`Cause: ${cause}`, `What to do: ${remedy}`]);
  });
});

test('each kind of advice has the words of the Python package', () => {
  const all = Object.values(words.advice).flatMap((it) => JSON.parse(/** @type {any} */ (it).example).advice);
  const said = wordsOfPython(all.map((it) => JSON.stringify(it)));
  assert.equal(all.length, 4);
  all.forEach((advice, at) => {
    const { title, sentence, place } = adviceInWords(words, advice);
    assert.deepEqual([title, sentence, place], said[at].slice(0, 3));
  });
});

test('fractions', () => {
  const said = { '800/180': '40/9', '-7/2': '-7/2', '10/2': '5', '0/3': '0', '7/-2': '-7/2', '8/0': '8/0' };
  for (const [given, wanted] of Object.entries(said)) {
    const [above, below] = given.split('/');
    assert.equal(fractionText(above, below), wanted);
  }
  const most = 2n ** 126n;
  assert.equal(fractionText(String(most * 3n), String(most)), '3');
  assert.equal(fractionText(String(most * 3n + 1n), String(most)), `${most * 3n + 1n}/${most}`);
});

test('what is no fault has no words', () => {
  for (const it of [{}, { code: 100 }, { code: 'constructor' }, { code: 201 }, { code: 504, layer: 0 }, { code: 101, scope: 'ring' }]) {
    assert.throws(() => faultInWords(words, it), TypeError);
  }
  assert.throws(() => adviceInWords(words, { kind: 'toString' }), TypeError);
});
