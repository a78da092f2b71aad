/**
 * mvtgate: judges Mapbox vector tiles (Mapbox Vector Tile Specification 2.1), by the proved judge as WebAssembly.
 *
 * A call ends with an answer, with OutOfMemory where memory was refused, or with a TypeError for what it doesn't take. After each
 * of them further calls are answered.
 */
import type {
  Advice, Advised, Bytes, CallOptions, Dumped, Explanation, Fault, FaultsOptions, GateWorker, MendOptions, Mended, Options, PoolOptions,
  QuickOptions, Source,
} from './types.js';

export * from './types.js';

/** The gate in this thread. Its calls block: a large tile takes seconds. */
export function load(source?: Source): Promise<Gate>;

/** The gate in workers, which are made as they are needed. */
export function loadPool(options?: PoolOptions): Promise<Pool>;

/** A fault or an advice in plain words; with the tile also what other format its bytes are. */
export function explain(it: Fault | Advice, tile?: Uint8Array): Explanation;

export class Gate {
  constructor(module: WebAssembly.Module);
  /** Such as '0.1.0'. */
  readonly version: string;
  /** The first fault, or null for a valid tile. */
  check(tile: Bytes, options?: QuickOptions): Fault | null;
  /** The first fault of each layer with a fault of its version or its name, and of each feature with any. */
  faults(tile: Bytes, options?: FaultsOptions): Fault[];
  /** Whether a fault is true of the tile, by a separate checker; a TypeError for a text that is no fault. */
  confirm(tile: Bytes, fault: Fault | string, options?: Options): boolean;
  /** A valid tile in the place of one whose polygons break the rules, with all else byte for byte as it was. */
  mend(tile: Bytes, options?: MendOptions): Mended;
  dump(tile: Bytes): Dumped;
  advise(tile: Bytes): Advised;
  explain(it: Fault | Advice, tile?: Bytes): Explanation;
}

export class Pool {
  constructor(module: WebAssembly.Module, newWorker: () => GateWorker, size: number);
  readonly size: number;
  check(tile: Bytes, options?: QuickOptions & CallOptions): Promise<Fault | null>;
  faults(tile: Bytes, options?: FaultsOptions & CallOptions): Promise<Fault[]>;
  confirm(tile: Bytes, fault: Fault | string, options?: Options & CallOptions): Promise<boolean>;
  mend(tile: Bytes, options?: MendOptions & Pick<CallOptions, 'signal'>): Promise<Mended>;
  dump(tile: Bytes, options?: CallOptions): Promise<Dumped>;
  advise(tile: Bytes, options?: CallOptions): Promise<Advised>;
  explain(it: Fault | Advice, tile?: Bytes): Explanation;
  /** Ends all workers. Calls without an answer are rejected with Stopped, and so are later ones. Without it Node ends all the same. */
  close(): void;
}

/** Memory was refused. The same call may answer where more of it is free. */
export class OutOfMemory extends Error {}

/** The pool was closed before the call had an answer. */
export class Stopped extends Error {}
