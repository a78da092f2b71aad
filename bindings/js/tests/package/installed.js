/** The package's file, installed in a fresh folder, for the tests. */
import { execFileSync, spawnSync } from 'node:child_process';
import { mkdirSync, mkdtempSync, rmSync, writeFileSync } from 'node:fs';
import { tmpdir } from 'node:os';
import { after } from 'node:test';
import { TOP } from '../samples.js';

export const HAS_NPM = spawnSync('npm', ['--version']).status === 0;

/** A folder of the test file, which goes after its tests. */
export function freshFolder() {
  const folder = mkdtempSync(`${tmpdir()}/mvtgate-`);
  after(() => rmSync(folder, { recursive: true, force: true }));
  return folder;
}

/**
 * @param {string} folder
 * @returns {string} the package's file
 */
export function packed(folder) {
  return execFileSync(`${TOP}bindings/js/pack`, [folder], { encoding: 'utf8' }).trim();
}

/**
 * Installs the package's file, by npm where that is there.
 * @param {string} file
 * @param {string} folder
 */
export function install(file, folder) {
  writeFileSync(`${folder}/package.json`, '{"private": true, "type": "module"}');
  if (HAS_NPM) {
    execFileSync('npm', ['install', '--offline', '--no-audit', '--no-fund', '--cache', `${folder}/cache`, file], { cwd: folder, stdio: 'pipe' });
    return;
  }
  mkdirSync(`${folder}/node_modules/mvtgate`, { recursive: true });
  execFileSync('tar', ['--extract', '--gzip', '--strip-components=1', '-f', file, '-C', `${folder}/node_modules/mvtgate`]);
}
