// What a user of the package writes, and what its types refuse. (The package is mvtgate, as it is installed.)
import { Gate, OutOfMemory, Pool, explain, load, loadPool } from 'mvtgate';
import type { Change, Fault, Mended } from 'mvtgate';

export async function use(tile: Uint8Array): Promise<string> {
  const gate: Gate = await load();
  const fault: Fault | null = gate.check(tile, { profile: 'feature', quick: true });
  if (fault?.code === 504) return `${fault.x}/${fault.w} ${fault.first.edge}`;
  if (fault && 'scope' in fault && fault.scope === 'value') return String(fault.value);
  const mended: Mended = gate.mend(tile.buffer, { drop: true });
  const changes: Change[] = mended.changed;
  const bytes: Uint8Array = mended.outcome === 'refused' ? tile : mended.tile;
  const pool: Pool = await loadPool({ size: 2 });
  const all: Fault[] = await pool.faults(bytes, { limit: 10, signal: new AbortController().signal, transfer: true });
  const { title, format } = explain(all[0], tile);
  return title + (format?.name ?? '') + changes.length + gate.explain({ kind: 'no_layer' }).remedy + new OutOfMemory().message;
}

export async function misuse(gate: Gate, pool: Pool, tile: Uint8Array): Promise<void> {
  // @ts-expect-error
  gate.check('tile');
  // @ts-expect-error
  gate.check(tile, { profile: 'neither' });
  // @ts-expect-error
  gate.check(tile)?.ring;
  // @ts-expect-error
  gate.confirm(tile, { code: 201 });
  // @ts-expect-error
  const fault: Fault = await pool.check(tile);
  // @ts-expect-error
  gate.mend(tile).tile.length;
  // @ts-expect-error
  gate.dump(tile).layers;
  // @ts-expect-error
  await pool.mend(tile, { transfer: true });
  console.log(fault);
}
