// One view of a picture's plane, which can be zoomed and moved.

import { enlarged, heightOf, middleOf, sizeOf, union, widthOf } from '../plane/box.js';
import { frameOf } from '../plane/frame.js';
import { Canvas } from './canvas.js';
import { listen } from './gestures.js';
import { glide } from './glide.js';

/** @typedef {import('../types.js').Picture} Picture */
/** @typedef {import('../types.js').Box} Box */
/**
 * @typedef {object} Options
 * @property {string} label
 * @property {Box} box what is seen first
 * @property {(place: {x: number, y: number}|null) => void} onPoint where the pointer is, in pixels
 * @property {() => void} onMove another box is seen
 * @property {(x: number, y: number) => void} onClick
 * @property {(key: string) => boolean} onKey a key that the view has no use for
 */

const LEAST_SIZE = 2 ** -8; // units of the tile
const STEP = 1.5; // of a key that zooms
const SHARE = 0.15; // of the view, by a key that moves it

/**
 * What keys do, in words.
 * @param {Picture} picture
 * @returns {string}
 */
export function keysText({ close, kind }) {
  const more = `${close ? ', C the close view' : ''}${kind === 'map' ? '; N and P select the next and the previous feature' : ''}`;
  return `Keys: + and - zoom, arrows move, 0 shows the whole, T the tile${more}.`;
}

export class View {
  /**
   * @param {Picture} picture
   * @param {Options} options
   */
  constructor(picture, options) {
    this.picture = picture;
    this.options = options;
    this.box = options.box;
    this.stopGliding = () => {};
    this.canvas = new Canvas(picture, options.label);
    this.element = document.createElement('div');
    this.element.className = 'picture-view';
    this.element.tabIndex = 0;
    this.element.setAttribute('role', 'group');
    this.element.setAttribute('aria-label', `${options.label}. ${keysText(picture)}`);
    this.element.append(this.canvas.element);
    this.stopListening = listen(this.element, {
      pan: (dx, dy) => this.pan(dx, dy),
      zoom: (factor, x, y) => this.zoom(factor, x, y),
      point: (x, y) => options.onPoint({ x, y }),
      leave: () => options.onPoint(null),
      click: options.onClick,
      key: (key) => this.key(key) || options.onKey(key),
    });
    this.observer = new ResizeObserver(() => this.resize());
    this.observer.observe(this.element);
  }

  /** How the box is laid on the element. */
  layout() {
    return frameOf(this.box, Math.max(this.element.clientWidth, 1), Math.max(this.element.clientHeight, 1));
  }

  /** Draws for the size that the element has now. */
  resize() {
    const frame = this.layout(), { drawn } = this.canvas;
    if (frame.width === drawn.width && frame.height === drawn.height) return;
    this.canvas.frame = frame;
    this.canvas.draw();
  }

  /**
   * @param {number} x
   * @param {number} y
   * @returns {{x: number, y: number}}
   */
  coordinatesAt(x, y) {
    const { box, scale } = this.layout();
    return { x: box.left + x / scale, y: box.top + y / scale };
  }

  /** @param {Box} box */
  show(box) {
    this.stopGliding();
    this.place(box);
  }

  /**
   * Shows a box by moving there.
   * @param {Box} box
   */
  glideTo(box) {
    this.stopGliding();
    this.stopGliding = glide(this.box, box, (between) => this.place(between));
  }

  /** @param {Box} box */
  place(box) {
    this.box = this.limited(box);
    this.canvas.show(this.layout());
    this.options.onMove();
  }

  /**
   * A box that is neither too small nor too large nor too far away.
   * @param {Box} box
   * @returns {Box}
   */
  limited(box) {
    const whole = union(this.picture.box ?? box, this.picture.tile ?? box);
    const size = Math.min(Math.max(sizeOf(box), LEAST_SIZE), 16 * sizeOf(whole));
    const far = enlarged(whole, sizeOf(whole));
    const middle = middleOf(box);
    const x = Math.min(Math.max(middle.x, far.left), far.right), y = Math.min(Math.max(middle.y, far.top), far.bottom);
    const halfWidth = (size * widthOf(box)) / sizeOf(box) / 2, halfHeight = (size * heightOf(box)) / sizeOf(box) / 2;
    return { left: x - halfWidth, top: y - halfHeight, right: x + halfWidth, bottom: y + halfHeight };
  }

  /**
   * @param {number} dx pixels
   * @param {number} dy
   */
  pan(dx, dy) {
    const { box, scale } = this.layout();
    this.show({ left: box.left - dx / scale, top: box.top - dy / scale, right: box.right - dx / scale, bottom: box.bottom - dy / scale });
  }

  /**
   * Zooms about a place, or the middle.
   * @param {number} factor more than 1 shows less, and larger
   * @param {number} [x] pixels
   * @param {number} [y]
   */
  zoom(factor, x, y) {
    const { box, width, height } = this.layout();
    const by = Math.min(factor, sizeOf(box) / LEAST_SIZE);
    const fixed = this.coordinatesAt(x ?? width / 2, y ?? height / 2);
    this.show({
      left: fixed.x - (fixed.x - box.left) / by, top: fixed.y - (fixed.y - box.top) / by,
      right: fixed.x + (box.right - fixed.x) / by, bottom: fixed.y + (box.bottom - fixed.y) / by,
    });
  }

  /**
   * @param {string} key
   * @returns {boolean} whether it is a key of the view
   */
  key(key) {
    const { width, height } = this.layout(), { box, close, tile } = this.picture;
    const dx = width * SHARE, dy = height * SHARE;
    /** @type {Record<string, () => void>} */
    const actions = {
      '+': () => this.zoom(STEP), '=': () => this.zoom(STEP), '-': () => this.zoom(1 / STEP),
      ArrowLeft: () => this.pan(dx, 0), ArrowRight: () => this.pan(-dx, 0), ArrowUp: () => this.pan(0, dy), ArrowDown: () => this.pan(0, -dy),
      ...(box ? { 0: () => this.glideTo(box) } : {}), ...(close ? { c: () => this.glideTo(close) } : {}),
      ...(tile ? { t: () => this.glideTo(tile) } : {}),
    };
    const action = actions[key.length === 1 ? key.toLowerCase() : key];
    action?.();
    return action !== undefined;
  }

  /** Takes listeners and timers away. */
  destroy() {
    this.stopListening();
    this.stopGliding();
    this.observer.disconnect();
    this.canvas.stop();
    this.element.remove();
  }
}
