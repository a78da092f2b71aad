// The package's file, installed in a fresh folder and used by another process.
import assert from 'node:assert/strict';
import { execFileSync, spawnSync } from 'node:child_process';
import { readFileSync, writeFileSync } from 'node:fs';
import { test } from 'node:test';
import { SAMPLES, TOP, YES } from '../samples.js';
import { HAS_NPM, freshFolder, install, packed } from './installed.js';

const folder = freshFolder();
const file = packed(folder);
install(file, folder);

/**
 * @param {string} script
 * @param {string[]} words
 */
function run(script, ...words) {
  writeFileSync(`${folder}/script.js`, script);
  const { status, stdout, stderr } = spawnSync(process.execPath, ['script.js', ...words], { cwd: folder, encoding: 'utf8', timeout: 300000 });
  assert.deepEqual([status, stderr], [0, ''], stderr);
  return stdout;
}

/** @param {string} archive */
const listOf = (archive) => execFileSync('tar', ['--list', '-f', archive], { encoding: 'utf8' }).trimEnd().split('\n').sort();

test('it has what it names, and no dependency', () => {
  const files = listOf(file), about = JSON.parse(readFileSync(`${TOP}bindings/js/package.json`, 'utf8'));
  for (const it of ['package.json', 'README.md', 'mvtgate.wasm', 'src/node.js', 'src/web.js', 'src/index.d.ts', 'examples/tile_gate.js']) {
    assert.ok(files.includes(`package/${it}`), it);
  }
  assert.deepEqual(files.filter((it) => !/^package\/(README\.md|package\.json|mvtgate\.wasm|(src|examples)\/.*\.(js|d\.ts))$/.test(it)), []);
  assert.deepEqual([about.dependencies, about.peerDependencies, about.scripts], [undefined, undefined, undefined]);
  assert.equal(about.version, readFileSync(`${TOP}VERSION`, 'utf8').trim());
});

test('the same files give the same bytes', () => {
  assert.deepEqual(readFileSync(packed(freshFolder())), readFileSync(file));
});

if (HAS_NPM) {
  test('npm makes the same of it', () => {
    const other = freshFolder(), [here, there] = [freshFolder(), freshFolder()];
    execFileSync('npm', ['pack', '--silent', '--cache', `${other}/cache`, '--pack-destination', other, `${TOP}bindings/js`], { stdio: 'pipe' });
    const made = `${other}/${file.slice(file.lastIndexOf('/') + 1)}`;
    assert.deepEqual(listOf(made), listOf(file));
    execFileSync('tar', ['--extract', '-f', file, '-C', here]);
    execFileSync('tar', ['--extract', '-f', made, '-C', there]);
    execFileSync('diff', ['--recursive', here, there]);
  });
}

test('another process judges all samples', () => {
  const said = run(`
    import { readFileSync } from 'node:fs';
    import { load } from 'mvtgate';
    const gate = await load();
    for (const path of process.argv.slice(2)) {
      const tile = readFileSync(path), lines = ['polygon', 'feature'].map((profile) => JSON.stringify(gate.check(tile, { profile }) ?? { ok: true }));
      console.log(lines.join(' '));
    }`, ...SAMPLES.map(({ name }) => `${TOP}tiles/${name}.mvt`));
  const lines = said.trimEnd().split('\n');
  assert.equal(lines.length, SAMPLES.length);
  SAMPLES.forEach(({ name, lines: { polygon, feature } }, at) => {
    const [first, second] = lines[at].split(' ');
    assert.ok(polygon.includes(first) && feature.includes(second), `${name}: ${lines[at]}`);
  });
  assert.ok(lines.includes(`${YES} ${YES}`));
});

test('another process uses the pool, the pictures and the module', () => {
  const said = run(`
    import { readFileSync } from 'node:fs';
    import { fileURLToPath } from 'node:url';
    import { createRequire } from 'node:module';
    import { load, loadPool } from 'mvtgate';
    import { pictureOfFault, toText } from 'mvtgate/picture';
    const tile = readFileSync(process.argv[2]), pool = await loadPool({ size: 2 });
    const fault = await pool.check(tile);
    console.log(toText(pictureOfFault(fault, tile, (await pool.dump(tile)).record)).startsWith('<?xml'));
    console.log((await pool.mend(tile)).outcome);
    const wasm = createRequire(import.meta.url).resolve('mvtgate/mvtgate.wasm');
    console.log((await load(readFileSync(wasm))).version);`, `${TOP}tiles/crossing_edges.mvt`);
  assert.deepEqual(said.split('\n'), ['true', 'mended', readFileSync(`${TOP}VERSION`, 'utf8').trim(), '']);
});

test('a bundler keeps the worker that is imported for what it does', { skip: spawnSync('esbuild', ['--version']).status !== 0 && 'there is no esbuild' }, () => {
  writeFileSync(`${folder}/own_worker.js`, "import 'mvtgate/worker';\n");
  const { status, stdout, stderr } = spawnSync('esbuild', ['--bundle', '--format=esm', 'own_worker.js'], { cwd: folder, encoding: 'utf8' });
  assert.deepEqual([status, stderr], [0, '']);
  assert.match(stdout, /addEventListener\("message"/);
});

test("the README's lines", () => {
  const text = readFileSync(`${TOP}bindings/js/README.md`, 'utf8');
  const [, script] = /```js\n([\s\S]*?)```/.exec(text) ?? [];
  assert.ok(script.includes('load'));
  const said = run(`import { readFileSync } from 'node:fs';\nconst tile = readFileSync(process.argv[2]);\n${script}`, `${TOP}tiles/crossing_edges.mvt`);
  assert.match(said, /^504 layer 0, feature 0/);
});

test('types for its user', { skip: spawnSync('tsc', ['--version']).status !== 0 && 'there is no tsc' }, () => {
  writeFileSync(`${folder}/user.ts`, readFileSync(`${TOP}bindings/js/tests/types/user.ts`));
  for (const [module, moduleResolution] of [['nodenext', 'nodenext'], ['es2022', 'node']]) {
    const compilerOptions = { noEmit: true, strict: true, target: 'es2022', lib: ['es2022', 'dom'], types: [], module, moduleResolution };
    writeFileSync(`${folder}/tsconfig.json`, JSON.stringify({ compilerOptions, files: ['user.ts'] }));
    const { status, stdout } = spawnSync('tsc', ['-p', folder], { encoding: 'utf8' });
    assert.deepEqual([status, stdout], [0, '']);
  }
});
