/** What goes into the gate's calls, and what comes out. All ordinals count from 0. */

/** A tile's uncompressed bytes. A `Buffer` is a `Uint8Array`. They are copied once, into the module's memory. */
export type Bytes = ArrayBufferView | ArrayBufferLike;

/**
 * What the polygons of a feature are held against: `polygon` each by itself, `feature` also against each other.
 */
export type Profile = 'polygon' | 'feature';

export interface Options {
  /** `polygon` where it is left out. */
  profile?: Profile;
}

export interface QuickOptions extends Options {
  /**
   * Bounded time for tiles of others, about n log n. By `feature` the fault may then be any meeting (504) of its feature; the same
   * tiles are valid.
   */
  quick?: boolean;
}

export interface FaultsOptions extends QuickOptions {
  /** How many faults are wanted at most; all where it is left out. */
  limit?: number;
}

export interface MendOptions extends Options {
  /** Whether features that can't be mended are left out. Then a tile with no other faults than those of polygons is never refused. */
  drop?: boolean;
}

export interface CallOptions {
  /** Ends the call: its promise is rejected with the signal's reason. */
  signal?: AbortSignal;
  /** Hands the tile's buffer over to the worker, where the tile is all of it, in place of a copy. The tile is empty afterwards. */
  transfer?: boolean;
}

/** The module in place of the package's own: its bytes, a response with them, or compiled. */
export type Source = WebAssembly.Module | BufferSource | Response | PromiseLike<WebAssembly.Module | BufferSource | Response>;

export interface PoolOptions {
  /** How many workers there are at most; as many as processors where it is left out. */
  size?: number;
  source?: Source;
  /** Makes a worker that runs `gate/worker.js`, where a bundler or a policy wants it otherwise. */
  newWorker?: () => GateWorker;
}

/** A worker of a browser, or what is like one. */
export interface GateWorker {
  onmessage: any;
  onerror: any;
  postMessage(message: any, moved: any[]): void;
  terminate(): void;
}

/** Bytes that are no tile. `at` is a byte of the tile, `field` the number of a field, or 0. */
export type WireFault =
  & { code: 101 | 102 | 103 | 104 | 105 | 106 | 107 | 108 | 109 | 110 | 111; at: number; field: number }
  & (
    | { scope: 'tile' }
    | { scope: 'layer'; layer: number }
    | { scope: 'value'; layer: number; value: number }
    | { scope: 'feature'; layer: number; feature: number }
  );

export interface RingEdge {
  edge: number;
  ring: number;
}

/** A fault of a tile, as the program writes it: `JSON.stringify` of it is the program's very text. */
export type Fault =
  | WireFault
  | { code: 201; layer: number }
  | { code: 202; first: number; second: number }
  | { code: 301 | 302 | 303 | 304 | 401 | 402 | 403 | 404 | 405 | 406; layer: number; feature: number; index: number }
  | { code: 501 | 502 | 503; layer: number; feature: number; ring: number }
  /** Two edges have the point (x/w, y/w) in common; the three are decimal digits. */
  | { code: 504; layer: number; feature: number; polygon: number; first: RingEdge; second: RingEdge; x: string; y: string; w: string }
  | { code: 505; layer: number; feature: number; polygon: number; ring: number; vertex: number }
  | { code: 506; layer: number; feature: number; polygon: number; ring: number; vertex: number; other: number }
  | { code: 507; layer: number; feature: number; polygon: number; vertex: number; other: number };

/** What became of a feature that had a fault. In pairs the first is before and the second after. */
export type Change =
  | { what: 'dropped'; layer: number; feature: number }
  | {
    what: 'mended';
    layer: number;
    feature: number;
    /** Twice the area, in decimal digits. */
    area: [string, string];
    polygons: [number, number];
    vertices: [number, number];
    /** How many crossings of edges were rounded to a position. */
    crossings: number;
    /** How many corners were cut. */
    cuts: number;
  };

/** What `mend` made of a tile. Of a valid one the tile is the very bytes that were given. */
export type Mended =
  | { outcome: 'valid'; tile: Uint8Array; changed: []; fault: null }
  | { outcome: 'mended'; tile: Uint8Array; changed: Change[]; fault: null }
  | { outcome: 'refused'; tile: null; changed: []; fault: Fault };

/** A number, or its digits where it has 16 of them or more. */
export type Whole = number | string;

/** A value of a tag. `float` and `double` are the 4 or 8 bytes in hexadecimal. */
export type Value =
  | { string: string } | { bool: boolean } | { int: Whole } | { sint: Whole } | { uint: Whole } | { float: string } | { double: string };

export interface Feature {
  geometry: number[];
  id: Whole | null;
  /** Pairs of a key and a value of the layer. */
  tags: number[];
  /** 0 UNKNOWN, 1 POINT, 2 LINESTRING, 3 POLYGON */
  type: number;
}

export interface Layer {
  extent: number;
  features: Feature[];
  keys: string[];
  name: string;
  values: Value[];
  version: number;
}

export interface TileRecord {
  layers: Layer[];
}

/** What a tile holds, or the fault for which the bytes are no tile. */
export type Dumped = { record: TileRecord; fault: null } | { record: null; fault: WireFault };

/** What no rule forbids and may still be a mistake. */
export type Advice =
  | { kind: 'no_layer' }
  | { kind: 'no_feature'; layer: number }
  | { kind: 'equal_key' | 'equal_id'; layer: number; first: number; second: number };

export type Advised = { advice: Advice[]; fault: null } | { advice: null; fault: WireFault };

/** A format of files that are often taken for tiles. */
export interface OtherFormat {
  /** gzip, zlib, zstd, sqlite, pmtiles, png or json. */
  name: string;
  title: string;
  sentence: string;
  remedy: string;
}

/** A fault or an advice in plain words. */
export interface Explanation {
  title: string;
  /** What is wrong with this tile. */
  sentence: string;
  place: string;
  meaning: string;
  cause: string;
  remedy: string;
  /** What the bytes are, where they are no tile and that is known. */
  format: OtherFormat | null;
}
