import assert from 'node:assert/strict';
import { spawnSync } from 'node:child_process';
import { createHash } from 'node:crypto';
import { mkdtempSync, rmSync, writeFileSync } from 'node:fs';
import { tmpdir } from 'node:os';
import { test } from 'node:test';
import { embeddedModule } from '../../site/gate/embedded.js';
import { TOP } from '../../../bindings/js/tests/samples.js';

/**
 * @param {string} script
 * @param {Uint8Array} module
 * @returns {{status: number | null, page: string, said: string}}
 */
function assemble(script, module) {
  const room = mkdtempSync(`${tmpdir()}/mvtgate-`);
  try {
    writeFileSync(`${room}/script`, script);
    writeFileSync(`${room}/module`, module);
    const words = ['--script', `${room}/script`, '--module', `${room}/module`, '--version', '12.34.56'];
    const { status, stdout, stderr } = spawnSync(`${TOP}web/assemble`, words, { encoding: 'utf8' });
    return { status, page: stdout, said: stderr };
  } finally {
    rmSync(room, { recursive: true });
  }
}

test('the page has all parts in it, and allows its script alone', () => {
  const script = "console.log('ä $& @STYLE@');\n";
  const module = new Uint8Array([0, 97, 115, 109, 255]);
  const { status, page, said } = assemble(script, module);
  assert.deepEqual([status, said], [0, '']);
  assert.ok(page.includes(`<script>${script}</script>`));
  assert.ok(page.includes(`script-src 'sha256-${createHash('sha256').update(script).digest('base64')}' 'wasm-unsafe-eval'`));
  assert.ok(page.includes('12.34.56'));
  const [, text] = page.match(/<script type="text\/plain" id="module">([^<]*)</) ?? [];
  const document = { getElementById: (/** @type {string} */ id) => (id === 'module' ? { textContent: text } : null) };
  assert.deepEqual(embeddedModule(/** @type {any} */ (document)), module);
});

test('a script that would end its element is refused', () => {
  for (const script of ["'</script>'", "'</SCRIPT '", "'<!--'"]) {
    const { status, page, said } = assemble(script, new Uint8Array(0));
    assert.deepEqual([status, page], [1, '']);
    assert.match(said, /^page: what is put at @SCRIPT@ has /);
  }
});
