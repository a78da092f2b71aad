// Faults of the list as files: CSV (RFC 4180), and GeoJSON (RFC 7946) as the run itself writes it.

import { csvText, plain } from '../../app/tools/csv.js';
import { tileName } from './listing.js';

/** @typedef {import('./listing.js').Table} Table */

const HEAD = ['source', 'zoom', 'column', 'row', 'layer', 'feature_id', 'code', 'sentence', 'longitude', 'latitude'];
const DIGITS = 9;

/**
 * @param {Table} table
 * @param {number[]} listed
 * @param {string[]} sources their paths
 */
export function csvOf(table, listed, sources) {
  const lines = listed.map((at) => {
    const layer = plain(table.layers[table.layer[at]] ?? ''), [longitude, latitude] = table.point[at] ?? ['', ''];
    return [plain(sources[table.source[at]]), table.zoom[at], table.column[at], table.row[at], layer, table.id[at] ?? '', table.code[at],
      table.sentence[at], longitude, latitude];
  });
  return csvText([HEAD, ...lines]);
}

/**
 * @param {Table} table
 * @param {number[]} listed
 * @param {string[]} sources
 */
export function geojsonOf(table, listed, sources) {
  const features = listed.map((at) => JSON.stringify({
    type: 'Feature',
    geometry: geometryOf(table, at),
    properties: {
      tile: tileName(table, at), zoom: table.zoom[at], column: table.column[at], row: table.row[at], layer: table.layers[table.layer[at]] ?? null,
      feature_id: table.id[at], code: table.code[at], sentence: table.sentence[at], source: sources[table.source[at]],
    },
  }));
  return `{"type": "FeatureCollection", "features": [\n${features.join(',\n')}\n]}\n`;
}

/**
 * A fault's point, or the box of its tile.
 * @param {Table} table
 * @param {number} at
 */
function geometryOf({ point, zoom, column, row }, at) {
  if (point[at]) return { type: 'Point', coordinates: point[at] };
  const count = 2 ** zoom[at];
  const [west, east] = [column[at], column[at] + 1].map((it) => rounded((it / count) * 360 - 180));
  const [north, south] = [row[at], row[at] + 1].map((it) => rounded((Math.atan(Math.sinh(Math.PI * (1 - (2 * it) / count))) * 180) / Math.PI));
  return { type: 'Polygon', coordinates: [[[west, south], [east, south], [east, north], [west, north], [west, south]]] };
}

/** @param {number} degrees */
function rounded(degrees) {
  return Number(degrees.toFixed(DIGITS));
}
