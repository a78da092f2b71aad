// The numbers of a feature's geometry, read as commands and followed to positions.

/** The greatest coordinate, and the negative of the least, that the gate lets a position have. */
export const GREATEST_COORDINATE = 2 ** 30;

/** The geometry types of a feature that draws something. */
export const POINT = 1, LINESTRING = 2, POLYGON = 3;

/** The ids of commands. */
export const MOVE_TO = 1, LINE_TO = 2, CLOSE_PATH = 7;

const COMMAND_NAMES = new Map([[MOVE_TO, 'MoveTo'], [LINE_TO, 'LineTo'], [CLOSE_PATH, 'ClosePath']]);
const LEAST_PARAMETER = 2 ** 32 - 1; // the zigzag form of -2^31, which no step may have

/**
 * A path: positions that follow one another in a figure, from `first` on, `count` of them.
 * @typedef {{first: number, count: number, closed: boolean}} Path
 */

/**
 * What the numbers draw, as far as they could be followed. Position k is (xs[k], ys[k]), and the number at the place at[k] of the
 * list is the x of the step that leads there. `followed` numbers of the list were used.
 * @typedef {object} Figure
 * @property {number} type
 * @property {Int32Array} xs
 * @property {Int32Array} ys
 * @property {Uint32Array} at
 * @property {number} count how many positions there are
 * @property {Path[]} paths
 * @property {number} followed
 */

/**
 * @param {number} number a command integer
 * @returns {{id: number, count: number, name: string|null}}
 */
export function commandOf(number) {
  const id = number % 8;
  return { id, count: Math.floor(number / 8), name: COMMAND_NAMES.get(id) ?? null };
}

/**
 * The signed number of a parameter.
 * @param {number} number
 * @returns {number}
 */
export function parameterOf(number) {
  return number % 2 === 0 ? number / 2 : -(number + 1) / 2;
}

/**
 * Follows the first `end` numbers of a geometry. It stops at a number that is no command, at a position out of range, and where the
 * numbers end. What the type allows is not checked: before the place of a command fault everything is as it has to be.
 * @param {ArrayLike<number>} numbers
 * @param {number} type
 * @param {number} [end]
 * @returns {Figure}
 */
export function followCommands(numbers, type, end = numbers.length) {
  const room = Math.floor(end / 2);
  const figure = { type, xs: new Int32Array(room), ys: new Int32Array(room), at: new Uint32Array(room), count: 0,
    paths: /** @type {Path[]} */ ([]), followed: 0 };
  const limit = Math.min(end, numbers.length);
  while (figure.followed < limit && followOne(figure, numbers, limit));
  return figure;
}

/**
 * Follows the command at the place `figure.followed`, and says whether it could be followed to its end.
 * @param {Figure} figure
 * @param {ArrayLike<number>} numbers
 * @param {number} end
 * @returns {boolean}
 */
function followOne(figure, numbers, end) {
  const { id, count, name } = commandOf(numbers[figure.followed]);
  if (name === null) return false;
  figure.followed += 1;
  if (id === CLOSE_PATH) return closePath(figure);
  for (let k = 0; k < count; k += 1) {
    if (figure.followed + 1 >= end || !step(figure, numbers, id)) return false;
  }
  return true;
}

/**
 * @param {Figure} figure
 * @returns {boolean}
 */
function closePath(figure) {
  const path = figure.paths[figure.paths.length - 1];
  if (path) path.closed = true;
  return path !== undefined;
}

/**
 * Goes one step, and says whether it leads to a position in range.
 * @param {Figure} figure
 * @param {ArrayLike<number>} numbers
 * @param {number} id
 * @returns {boolean}
 */
function step(figure, numbers, id) {
  const at = figure.followed, last = figure.count - 1;
  if (numbers[at] === LEAST_PARAMETER || numbers[at + 1] === LEAST_PARAMETER) return false;
  const x = (last < 0 ? 0 : figure.xs[last]) + parameterOf(numbers[at]);
  const y = (last < 0 ? 0 : figure.ys[last]) + parameterOf(numbers[at + 1]);
  if (!isCoordinate(x) || !isCoordinate(y)) return false;
  if (beginsPath(figure, id)) figure.paths.push({ first: figure.count, count: 0, closed: false });
  figure.xs[figure.count] = x;
  figure.ys[figure.count] = y;
  figure.at[figure.count] = at;
  figure.count += 1;
  figure.paths[figure.paths.length - 1].count += 1;
  figure.followed += 2;
  return true;
}

/**
 * Points are one path; a line or a ring begins with each MoveTo.
 * @param {Figure} figure
 * @param {number} id
 * @returns {boolean}
 */
function beginsPath(figure, id) {
  return figure.paths.length === 0 || (id === MOVE_TO && figure.type !== POINT);
}

/**
 * @param {number} value
 * @returns {boolean}
 */
function isCoordinate(value) {
  return value >= -GREATEST_COORDINATE && value <= GREATEST_COORDINATE;
}

/** @typedef {'command'|'x'|'y'|'unread'} Meaning of a number: it can't be read where the walk had ended before it */
/** @typedef {{due: number, isLost: boolean}} Walk how many parameters are due; whether a number was no command */

/**
 * What the next number of a walk is.
 * @param {Walk} walk
 * @returns {Meaning}
 */
export function meaningDue({ due, isLost }) {
  if (isLost) return 'unread';
  return due === 0 ? 'command' : due % 2 === 0 ? 'x' : 'y';
}

/**
 * Goes past a number, without a look at what the geometry's type allows.
 * @param {Walk} walk
 * @param {number} number
 */
export function passNumber(walk, number) {
  if (walk.due > 0) {
    walk.due -= 1;
    return;
  }
  const id = number % 8; // (and no `commandOf`, which makes an object: there may be many millions)
  if (id === MOVE_TO || id === LINE_TO) walk.due = 2 * Math.floor(number / 8);
  else if (id !== CLOSE_PATH) walk.isLost = true;
}

/**
 * What each number of a list is, from the place `from` to before `to`.
 * @typedef {{index: number, number: number, kind: Meaning, text: string}} Decoded
 * @param {ArrayLike<number>} numbers
 * @param {number} from
 * @param {number} to
 * @returns {Decoded[]}
 */
export function decodeNumbers(numbers, from, to) {
  const decoded = [], end = Math.min(to, numbers.length), walk = { due: 0, isLost: false };
  for (let index = 0; index < end; index += 1) {
    const number = numbers[index], kind = meaningDue(walk);
    if (index >= from) decoded.push({ index, number, kind, text: textOfNumber(number, kind) });
    passNumber(walk, number);
  }
  return decoded;
}

/**
 * @param {number} number
 * @param {Meaning} kind
 * @returns {string}
 */
export function textOfNumber(number, kind) {
  if (kind === 'unread') return '';
  if (kind !== 'command') return `${kind === 'x' ? 'dX' : 'dY'} ${parameterOf(number)}`;
  const { id, count, name } = commandOf(number);
  return name === null ? `no command (id ${id})` : `${name} × ${count}`;
}
