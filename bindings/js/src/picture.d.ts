/** Pictures of faults, features and tiles as plain data, without a document, which are written as SVG. */
import type { Fault, Feature, Layer, TileRecord } from './types.js';

export interface Box {
  left: number;
  top: number;
  right: number;
  bottom: number;
}

export interface Picture {
  kind: string;
  title: string;
  /** One or two sentences that say what is shown. */
  words: string;
  /** A table of what is shown, with exact numbers. */
  places: { name: string; text: string; sample?: string }[];
  /** What is drawn: a plane, which is looked at through a box, or a strip of numbers, bytes or layers, or both. */
  plane: any;
  strip: any;
  /** The whole, in units of the tile; null without a plane. */
  box: Box | null;
  /** The place of the fault. */
  close: Box | null;
  /** The tile's extent. */
  tile: Box | null;
}

/** The picture of a fault; null where the tile doesn't have what the fault names. A wire fault needs no record. */
export function pictureOfFault(fault: Fault, tile: Uint8Array, record: TileRecord | null): Picture | null;
/** The map of all features of a tile. */
export function mapOfTile(record: TileRecord, choice?: { layers?: Set<number> | null; selected?: { layer: number; feature: number } | null }): Picture;
export function pictureOfFeature(feature: Feature, extent: number): Picture;
/** A feature before and after it was mended; null where it was left out. The place is that of the fault, where it has one. */
export function pictureOfMended(
  before: { feature: Feature; layer: Layer; extent: number }, after: Feature | null, at?: { x: number; y: number } | null,
): Picture;
/** A whole SVG file, seen through a box, or the whole; the size is that of the plane in pixels. */
export function toText(picture: Picture, box?: Box | null, size?: { width: number; height: number }): string;
