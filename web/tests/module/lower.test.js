import assert from 'node:assert/strict';
import { execFileSync, spawnSync } from 'node:child_process';
import { mkdtempSync, readFileSync, rmSync, writeFileSync } from 'node:fs';
import { tmpdir } from 'node:os';
import { test } from 'node:test';
import { TOP } from '../../../bindings/js/tests/samples.js';

// What the linker makes, but for the table, with functions that do little: `malloc` asks for a page, or answers the size of the
// memory, and `check` reads the byte at an address.
const PARTS = {
  memory: '(memory (export "memory") i64 1 20)',
  heap: '(global (export "__heap_base") i64 (i64.const 1024))',
  malloc: '(func (export "malloc") (param i64) (result i64) (memory.grow (local.get 0)))',
  free: '(func (export "free") (param i64))',
  forget: '(func (export "forget"))',
  check: '(func (export "check") (param i64) (result i32) (i32.load8_u offset=3 (local.get 0)))',
  checkQuickly: '(func (export "check_quickly"))',
  faults: '(func (export "faults"))',
  faultsQuickly: '(func (export "faults_quickly"))',
  mend: '(func (export "mend"))',
  confirm: '(func (export "confirm") (param i64 i32) (i32.store8 (local.get 0) (local.get 1)))',
  dump: '(func (export "dump") (result i64) (memory.size))',
  advise: '(func (export "advise"))',
  version: '(func (export "version") (result i32) (i32.const 100))',
};

/**
 * @param {{[part: string]: string}} parts
 * @returns {{status: number | null, said: string, module: Uint8Array | null}} how module/lower ended, and what it made
 */
function lower(parts) {
  const room = mkdtempSync(`${tmpdir()}/mvtgate-`);
  try {
    writeFileSync(`${room}/given.wat`, `(module ${Object.values(parts).join('\n')})`);
    execFileSync('wasm-as', ['--enable-memory64', `${room}/given.wat`, '-o', `${room}/given.wasm`]);
    const { status, stderr } = spawnSync(`${TOP}web/module/lower`, [`${room}/given.wasm`, `${room}/made.wasm`], { encoding: 'utf8' });
    return { status, said: stderr, module: status === 0 ? new Uint8Array(readFileSync(`${room}/made.wasm`)) : null };
  } finally {
    rmSync(room, { recursive: true });
  }
}

test('a module does the same with a memory of 32 bits', () => {
  const { status, said, module } = lower(PARTS);
  assert.deepEqual([status, said], [0, '']);
  const wasm = /** @type {any} */ (new WebAssembly.Instance(new WebAssembly.Module(/** @type {any} */ (module))).exports);
  wasm.confirm(70000n - 65536n + 3n, 77);
  assert.equal(wasm.check(70000n - 65536n), 77);
  assert.equal(wasm.malloc(4n), 1n);
  assert.equal(wasm.dump(), 5n);
  // (a refusal is -1 of 32 bits)
  assert.equal(wasm.malloc(100n), 0xffffffffn);
  assert.throws(() => wasm.check(5n * 65536n), WebAssembly.RuntimeError);
});

test('a module that imports something is refused', () => {
  const time = { import: '(import "env" "time" (func $time (result i64)))' };
  const { status, said } = lower({ ...time, ...PARTS, advise: '(func (export "advise") (drop (call $time)))' });
  assert.deepEqual([status, said], [1, 'page: the module imports something\n']);
});

test('a module with other exports is refused', () => {
  const { advise, ...others } = PARTS;
  for (const parts of [others, { ...PARTS, more: '(func (export "more"))' }]) {
    const { status, said } = lower(parts);
    assert.equal(status, 1);
    assert.match(said, /^page: the module exports memory, __heap_base, malloc/);
  }
});
