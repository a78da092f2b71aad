// The verdicts on all files as CSV (RFC 4180), as lines of JSON, and their faults as GeoJSON (RFC 7946).

import { explainFault } from '../../../../bindings/js/src/words/explain.js';
import { pointOf } from './about.js';
import { addressOf, addressText, boxOn, positionOn } from './address.js';
import { csvText, plain } from '../tools/csv.js';

/** @typedef {import('../files/checks.js').Entry} Entry */
/** @typedef {import('./address.js').Address} Address */

const COLUMNS = ['file', 'verdict', 'code', 'title', 'layer', 'layer_name', 'feature', 'feature_id', 'longitude', 'latitude', 'sentence', 'fault'];

/**
 * A line for each file that has a verdict or can't have one.
 * @param {Entry[]} entries
 */
export function csvOf(entries) {
  return csvText([COLUMNS, ...judged(entries).map(rowOf)]);
}

/** @param {Entry[]} entries */
function judged(entries) {
  return entries.filter(({ state }) => state === 'valid' || state === 'fault' || state === 'unreadable');
}

/**
 * @param {Entry} entry
 * @returns {(string|number)[]}
 */
function rowOf({ name, state, reason, fault, said, about }) {
  if (state !== 'fault' || !fault) return [plain(name), state === 'valid' ? 'valid' : 'error', '', '', '', '', '', '', '', '', plain(reason), ''];
  const { title, sentence } = explainFault(fault), address = addressOf(name), point = about && pointOf(fault, about);
  const position = address && (point ? positionOn(address, point.x, point.y) : positionOn(address, 0.5, 0.5));
  return [
    plain(name), 'fault', fault.code, title, fault.layer ?? fault.first ?? '', plain(about?.layer ?? ''), fault.feature ?? '', about?.featureId ?? '',
    ...(position ?? ['', '']), sentence, said,
  ];
}

/**
 * Lines with the members of those that mvtgate-check writes with --json --valid.
 * @param {Entry[]} entries
 */
export function jsonOf(entries) {
  return judged(entries).map((entry) => {
    const { state, reason, fault, format } = entry, tile = whereOf(entry);
    if (state === 'valid') return { ...tile, valid: true };
    if (state !== 'fault' || !fault) return { ...tile, error: reason };
    return { ...tile, fault, sentence: explainFault(fault).sentence, ...(format && { format: format.name }) };
  }).map((line) => `${JSON.stringify(line)}\n`).join('');
}

/**
 * The file in which a tile is, and in an archive its place.
 * @param {Entry} entry
 */
function whereOf({ name, place }) {
  return place ? { file: place.archive, tile: addressText(place) } : { file: name };
}

/**
 * The faults of tiles whose names have an address, as points or as the boxes of their tiles.
 * @param {Entry[]} entries
 * @returns {{text: string, count: number}} and how many there are
 */
export function geojsonOf(entries) {
  const features = entries.flatMap((entry) => {
    const address = entry.state === 'fault' ? addressOf(entry.name) : null;
    return address ? [JSON.stringify(featureOf(entry, address))] : [];
  });
  return { text: `{"type": "FeatureCollection", "features": [\n${features.join(',\n')}\n]}\n`, count: features.length };
}

/**
 * @param {Entry} entry
 * @param {Address} address
 */
function featureOf(entry, address) {
  const { fault, about } = entry, { file } = whereOf(entry);
  const found = /** @type {import('../files/checks.js').Fault} */ (fault), { featureId, layer } = about ?? { featureId: null, layer: null };
  const id = featureId !== null && Number.isSafeInteger(Number(featureId)) ? Number(featureId) : featureId;
  return {
    type: 'Feature', geometry: geometryOf(address, about && pointOf(found, about)),
    properties: { tile: addressText(address), ...address, layer, feature_id: id, code: found.code, sentence: explainFault(found).sentence, source: file },
  };
}

/**
 * @param {Address} address
 * @param {{x: number, y: number}|null} point
 */
function geometryOf(address, point) {
  if (point) return { type: 'Point', coordinates: positionOn(address, point.x, point.y) };
  const { west, south, east, north } = boxOn(address);
  return { type: 'Polygon', coordinates: [[[west, south], [east, south], [east, north], [west, north], [west, south]]] };
}
