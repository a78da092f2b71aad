// The pictures of a vertex that isn't where it has to be: of a hole, outside its exterior (505) or in another hole (506), and of an
// exterior, in another polygon (507).

import { vertexOf } from '../../tile/rings.js';
import { boxAround, extentBox, sizeOf, withMargin } from '../plane/box.js';
import { label, mark } from '../plane/scene.js';
import { boundsOf, nearBox, otherRings, readRings, ringLabel, ringsShapes, wholeBox } from './polygons.js';
import { positionText, ringList, ringText } from '../words.js';

/** @typedef {import('../types.js').Picture} Picture */
/** @typedef {import('../types.js').FeatureOfFault} FeatureOfFault */
/** @typedef {import('../plane/scene.js').Item} Item */
/** @typedef {import('./polygons.js').Feature} Feature */
/** @typedef {import('./polygons.js').Rings} Rings */
/** @typedef {{ring: number, vertex: number, position: {x: number, y: number}}} Vertex */
/**
 * A polygon, or one of its rings, that the picture names.
 * @typedef {{name: string, rings: number[], role: string, look: 'ring'|'named'|'second', polygon: number}} Subject
 */
/**
 * `shown` are the rings that the whole view holds.
 * @typedef {{kind: string, title: string, says: string, shown: number[], subjects: Subject[]}} Parts
 */

const AREAS = ['ring', 'second', 'named'], LINES = ['ring', 'named', 'second']; // the order in which looks are drawn
/** @type {Record<Subject['look'], string>} */
const LABEL_STYLES = { ring: 'label', named: 'label-first', second: 'label-second' };

/**
 * @param {{polygon: number, ring: number, vertex: number}} fault
 * @param {FeatureOfFault} of
 * @returns {Picture|null}
 */
export function pictureOfVertexOutside({ polygon, ring, vertex }, of) {
  const feature = readRings(of.feature.geometry, of.feature.type);
  const own = feature.groups.polygons[polygon], position = vertexOf(feature.figure, ring, vertex);
  if (!own || !position) return null;
  const [exterior] = own.rings;
  return pictureOf(feature, of.extent, { ring, vertex, position }, {
    kind: 'vertex outside', title: 'A hole outside its exterior', shown: own.rings,
    says: `Vertex ${vertex} of the hole, ring ${ring}, at ${positionText(position)}, isn't inside the exterior, ring ${exterior}.`,
    subjects: [{ name: `exterior, ring ${exterior}`, rings: own.rings, role: 'ring', look: 'ring', polygon },
      { name: `hole, ring ${ring}`, rings: [ring], role: 'hole', look: 'named', polygon }],
  });
}

/**
 * @param {{polygon: number, ring: number, vertex: number, other: number}} fault
 * @param {FeatureOfFault} of
 * @returns {Picture|null}
 */
export function pictureOfVertexInHole({ polygon, ring, vertex, other }, of) {
  const feature = readRings(of.feature.geometry, of.feature.type);
  const own = feature.groups.polygons[polygon], position = vertexOf(feature.figure, ring, vertex);
  if (!own || !position || !feature.figure.paths[other]) return null;
  return pictureOf(feature, of.extent, { ring, vertex, position }, {
    kind: 'vertex in hole', title: 'A hole in another hole', shown: own.rings,
    says: `Vertex ${vertex} of the hole, ring ${ring}, at ${positionText(position)}, is inside another hole, ring ${other}.`,
    subjects: [{ name: `exterior, ring ${own.rings[0]}`, rings: own.rings, role: 'ring', look: 'ring', polygon },
      { name: `hole, ring ${ring}`, rings: [ring], role: 'hole', look: 'named', polygon },
      { name: `other hole, ring ${other}`, rings: [other], role: 'other-hole', look: 'second', polygon }],
  });
}

/**
 * @param {{polygon: number, vertex: number, other: number}} fault
 * @param {FeatureOfFault} of
 * @returns {Picture|null}
 */
export function pictureOfVertexInPolygon({ polygon, vertex, other }, of) {
  const feature = readRings(of.feature.geometry, of.feature.type);
  const own = feature.groups.polygons[polygon], others = feature.groups.polygons[other];
  const position = own && vertexOf(feature.figure, own.rings[0], vertex);
  if (!own || !others || !position) return null;
  return pictureOf(feature, of.extent, { ring: own.rings[0], vertex, position }, {
    kind: 'vertex in polygon', title: 'A polygon in another polygon', shown: [...own.rings, ...others.rings],
    says: `Vertex ${vertex} of the exterior of polygon ${polygon}, at ${positionText(position)}, is inside polygon ${other} of the same feature.`,
    subjects: [{ name: `polygon ${polygon}`, rings: own.rings, role: 'ring', look: 'named', polygon },
      { name: `polygon ${other}`, rings: others.rings, role: 'other-polygon', look: 'second', polygon: other }],
  });
}

/**
 * @param {Feature} feature
 * @param {number} extent
 * @param {Vertex} vertex
 * @param {Parts} parts
 * @returns {Picture}
 */
function pictureOf(feature, extent, { ring, vertex, position }, { kind, title, says, shown, subjects }) {
  const { figure } = feature;
  const half = Math.max(1, Math.min(1.15 * sizeOf(boundsOf(figure, [ring])), sizeOf(boundsOf(figure, shown)) / 6));
  const close = boxAround(position.x, position.y, half);
  const rings = { ...feature, near: nearBox(figure, close) };
  const attributes = { 'data-role': 'vertex', 'data-ring': ring, 'data-vertex': vertex, 'data-x': position.x, 'data-y': position.y };
  return {
    kind, title, words: says + (rings.near ? ' The feature is large, and only what is near this vertex is drawn.' : ''),
    places: [{ name: 'vertex', text: `ring ${ring}, vertex ${vertex}: ${positionText(position)}` }, ...subjects.map((it) => placeOf(feature, it))],
    plane: { extent, items: [
      ...otherRings(rings, shown), ...subjectShapes(rings, subjects),
      mark('target', 'vertex', attributes, position), label('label', positionText(position), position),
      ...subjects.map(({ rings: [first], look, name }) => ringLabel(rings, first, LABEL_STYLES[look], name)),
    ] },
    strip: null, box: wholeBox(rings, shown), close, tile: withMargin(extentBox(extent)),
  };
}

/**
 * The shapes of what is named, so that of two at one place both are seen: the thinner and broken lines come last, and the area of what
 * has the fault.
 * @param {Rings} rings
 * @param {Subject[]} subjects
 * @returns {Item[]}
 */
function subjectShapes(rings, subjects) {
  const shapes = subjects.flatMap(({ rings: list, look, role, polygon }) => (
    ringsShapes(rings, list, look, { 'data-role': role, 'data-polygon': polygon })));
  const areas = shapes.filter(({ kind }) => kind === 'area'), lines = shapes.filter(({ kind }) => kind === 'line');
  return [
    ...AREAS.flatMap((look) => areas.filter(({ style }) => style === look)),
    ...LINES.flatMap((look) => lines.filter(({ style }) => style === look)),
  ];
}

/**
 * @param {Feature} feature
 * @param {Subject} subject
 * @returns {import('../types.js').Place}
 */
function placeOf(feature, { name, rings, look }) {
  const [first] = rings;
  const holes = rings.length > 1 ? `; with ${ringList(rings.slice(1))}` : '';
  const which = name.includes('ring') ? '' : `ring ${first}: `;
  return { name, sample: look, text: `${which}${ringText(feature, first)}${holes}` };
}
