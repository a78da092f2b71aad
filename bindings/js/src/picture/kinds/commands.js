// The picture of a fault of geometry commands (401 to 406): the geometry as far as it can be followed, and the numbers around the fault.
// A step of no length (406) leaves no doubt about what follows, which is drawn faintly.

import { GREATEST_COORDINATE, decodeNumbers, followCommands, parameterOf } from '../../tile/commands.js';
import { allowedCount, commandAround, dueAt } from '../../tile/due.js';
import { boxAround, extentBox, sizeOf, union, withMargin } from '../plane/box.js';
import { label, lineOf, mark, segment, shape } from '../plane/scene.js';
import { numberStrip } from '../strip/numbers.js';
import { figureBounds, pathShapes } from './paths.js';
import { nearBox } from './polygons.js';
import { counted, positionText } from '../words.js';

/** @typedef {import('../types.js').Picture} Picture */
/** @typedef {import('../types.js').FeatureOfFault} FeatureOfFault */
/** @typedef {import('../../tile/commands.js').Figure} Figure */
/** @typedef {import('../plane/scene.js').Item} Item */
/** @typedef {import('../plane/scene.js').Shape} Shape */
/** @typedef {{x: number, y: number}} Position */
/** @typedef {{code: number, index: number}} CommandFault */

const BEFORE = 12, AFTER = 8; // numbers that are shown before and after the fault's
const MOST_HALF = 16; // half of the size of a close view
/** @type {Record<import('../../tile/due.js').Due, string>} */
const DUE_WORDS = {
  MoveTo: 'a MoveTo', LineTo: 'a LineTo', ClosePath: 'a ClosePath', x: 'the x of a step', y: 'the y of a step', nothing: 'nothing more',
};

/**
 * @param {CommandFault} fault
 * @param {FeatureOfFault} of
 * @returns {Picture}
 */
export function pictureOfCommands(fault, { feature, extent }) {
  const numbers = feature.geometry, { index } = fault;
  const figure = followCommands(numbers, feature.type, index);
  const last = figure.count - 1;
  const position = last < 0 ? { x: 0, y: 0 } : { x: figure.xs[last], y: figure.ys[last] };
  const target = targetOf(fault, numbers, position);
  const rest = restOf(fault, numbers, feature.type);
  const tile = withMargin(union(extentBox(extent), boxAround(position.x, position.y, 0)));
  const drawn = union(figureBounds(figure), rest.bounds);
  const bounds = [position, ...(target ? [target] : [])].reduce((all, { x, y }) => union(all, boxAround(x, y, 0)), drawn);
  const whole = sizeOf(bounds) === 0 ? tile : withMargin(bounds);
  const close = boxAround(position.x, position.y, Math.max(2, Math.min(MOST_HALF, sizeOf(whole) / 6)));
  const near = nearBox(figure, close);
  return {
    kind: 'commands', title: 'The geometry as far as it can be followed',
    words: `${wordsOf(fault, numbers, feature.type)} ${last < 0 ? 'No position' : `The position ${positionText(position)}`} comes before it.`,
    places: placesOf(fault, numbers, figure, position),
    plane: { extent, items: [...(near ? [] : [rest]), ...pathShapes(figure, near), ...stepItems(position, target), ...lastItems(figure, position)] },
    strip: numberStrip(cellsOf(fault, numbers), `${counted(numbers.length, 'number', 'numbers')} of geometry, around number ${index}`),
    box: near ?? whole, close: sizeOf(close) < sizeOf(whole) / 2 ? close : null, tile,
  };
}

/**
 * @param {CommandFault} fault
 * @param {number[]} numbers
 * @param {number} type
 * @returns {string}
 */
function wordsOf({ code, index }, numbers, type) {
  const due = dueAt(numbers, type, index), [decoded] = decodeNumbers(numbers, index, index + 1);
  const number = `Number ${index} of the geometry`;
  if (code === 403) return `The geometry ends after ${counted(index, 'number', 'numbers')}, where ${DUE_WORDS[due]} is due.`;
  if (code === 401) return `At number ${index} of the geometry ${DUE_WORDS[due]} is due, and it is ${decoded.text || decoded.number}.`;
  if (code === 402) return `${number} is ${decoded.text}, and the count has to be ${allowedCount(due, type)}.`;
  if (code === 404) return `${number} is 4294967295, which would be a step of -2147483648.`;
  if (code === 405) return `${number} leads beyond ${GREATEST_COORDINATE} in ${decoded.kind}.`;
  return `${number} ends a LineTo step of (0, 0), which doesn't move.`;
}

/**
 * What a step of no length is a part of, which can be followed further.
 * @param {CommandFault} fault
 * @param {number[]} numbers
 * @param {number} type
 * @returns {Shape}
 */
function restOf({ code }, numbers, type) {
  const figure = followCommands(numbers, type, code === 406 ? numbers.length : 0);
  return shape('other', { 'data-role': 'rest' }, figure.paths.map((_, path) => lineOf(figure, path)));
}

/**
 * Where a step that leads out of range would end. Its y is that of the last position where it isn't known.
 * @param {CommandFault} fault
 * @param {number[]} numbers
 * @param {Position} position
 * @returns {Position|null}
 */
function targetOf({ code, index }, numbers, { x, y }) {
  if (code !== 404 && code !== 405) return null;
  const isX = decodeNumbers(numbers, index, index + 1)[0]?.kind === 'x';
  const first = isX ? index : index - 1;
  return { x: x + parameterOf(numbers[first]), y: first + 1 < numbers.length ? y + parameterOf(numbers[first + 1]) : y };
}

/**
 * @param {Position} position
 * @param {Position|null} target
 * @returns {Item[]}
 */
function stepItems(position, target) {
  if (!target) return [];
  return [shape('step', { 'data-role': 'step', 'data-to': `${target.x} ${target.y}` }, [segment(position, target)]),
    label('label-first', `would lead to ${positionText(target)}`, target)];
}

/**
 * @param {Figure} figure
 * @param {Position} position
 * @returns {Item[]}
 */
function lastItems(figure, position) {
  return [mark('diamond', 'last', { 'data-role': 'last-position', 'data-x': position.x, 'data-y': position.y }, position),
    label('label', `${figure.count === 0 ? 'begins at' : 'last position'} ${positionText(position)}`, position)];
}

/**
 * @param {CommandFault} fault
 * @param {number[]} numbers
 * @returns {import('../strip/numbers.js').Cell[]}
 */
function cellsOf({ index }, numbers) {
  const cells = decodeNumbers(numbers, Math.max(0, index - BEFORE), index + AFTER + 1).map((one) => ({
    index: one.index, number: String(one.number), text: one.text, isFault: one.index === index, isSecond: false, isFaint: one.index > index,
    isFirst: one.kind === 'command',
  }));
  if (index < numbers.length) return cells;
  return [...cells, { index, number: 'end', text: 'more is due', isFault: true, isSecond: false, isFaint: false, isFirst: false }];
}

/**
 * @param {CommandFault} fault
 * @param {number[]} numbers
 * @param {Figure} figure
 * @param {Position} position
 * @returns {import('../types.js').Place[]}
 */
function placesOf({ code, index }, numbers, figure, position) {
  const [decoded] = decodeNumbers(numbers, index, index + 1), at = figure.at[figure.count - 1];
  const around = commandAround(numbers, index), [command] = decodeNumbers(numbers, around, around + 1);
  const places = [
    { name: `number ${index}`, text: decoded ? `${decoded.number}: ${decoded.text}` : 'the end of the list' },
    ...(command && around !== index ? [{ name: 'command before', text: `number ${around}: ${command.text}` }] : []),
    { name: 'due there', text: DUE_WORDS[dueAt(numbers, figure.type, index)] },
    { name: 'last position', text: figure.count ? `${positionText(position)}, by numbers ${at} and ${at + 1}` : 'none' },
    { name: 'followed', text: `${counted(figure.count, 'position', 'positions')} in ${counted(figure.paths.length, 'path', 'paths')}` },
  ];
  if (code !== 405 || !decoded) return places;
  const from = decoded.kind === 'x' ? position.x : position.y;
  return [...places, { name: 'would lead to', text: `${decoded.kind} = ${from + parameterOf(decoded.number)}` }];
}
