import assert from 'node:assert/strict';
import { execFileSync } from 'node:child_process';
import { test } from 'node:test';
import { mapOfTile, pictureOfFault, toText } from '../../src/picture/index.js';
import { recordOf } from './tools.js';
import { SAMPLES, YES } from '../samples.js';

// Reads XML documents, each a JSON string in a line, and writes the name of each one's outermost element.
const PARSER = `
import json, sys
from xml.etree import ElementTree
for line in sys.stdin:
    print(ElementTree.fromstring(json.loads(line).encode()).tag)
`;

/** @param {string[]} files */
function assertAreSvg(files) {
  const said = execFileSync('python3', ['-c', PARSER], { input: files.map((it) => JSON.stringify(it)).join('\n'), encoding: 'utf8' });
  assert.deepEqual(said.trimEnd().split('\n'), files.map(() => '{http://www.w3.org/2000/svg}svg'));
}

/** The files of all sample tiles: those of their faults, and the maps of valid ones. */
const FILES = SAMPLES.flatMap(({ tile, lines }) => {
  const [line] = lines.feature;
  const fault = JSON.parse(line);
  const picture = line === YES ? mapOfTile(recordOf(tile)) : pictureOfFault(fault, tile, fault.code < 200 ? null : recordOf(tile));
  assert.ok(picture);
  return [toText(picture), ...(picture.close ? [toText(picture, picture.close)] : [])];
});

test('the files of all sample tiles are SVG', () => assertAreSvg(FILES));

test('files have their styles and no custom properties', () => {
  for (const file of FILES) {
    assert.match(file, /<style>/);
    assert.doesNotMatch(file, /var\(|NaN|undefined|Infinity/);
  }
});

test('names of a tile can hold any characters', () => {
  const name = '<b>&"\'\u0000\u001b\ufffe\ud800 é 😀';
  const layer = { name, version: 1, extent: 4096, keys: [name], values: [], features: [{ id: null, type: 1, tags: [0, 7], geometry: [9, 0, 0] }] };
  const layers = pictureOfFault({ code: 201, layer: 0 }, new Uint8Array(), { layers: [layer] });
  const tags = pictureOfFault({ code: 303, layer: 0, feature: 0, index: 1 }, new Uint8Array(), { layers: [layer] });
  assert.ok(layers && tags);
  assertAreSvg([toText(layers), toText(tags)]);
  assert.match(toText(layers), /&lt;b&gt;&amp;&quot;'\ufffd\ufffd\ufffd\ufffd é 😀/);
});
