// The SVG element that shows a part of a picture's plane. What is slow to draw is moved as it is while the view moves, and drawn anew
// when the movement ends.

import { heightOf, middleOf, sizeOf, widthOf } from '../plane/box.js';
import { drawItems, drawPlane } from '../plane/draw.js';
import { frameOf, toLeft, toTop } from '../plane/frame.js';
import { mark } from '../plane/scene.js';
import { selectedShapes } from '../kinds/map.js';
import { elementOf, tree } from '../tree.js';

/** @typedef {import('../types.js').Picture} Picture */
/** @typedef {import('../types.js').Box} Box */
/** @typedef {import('../plane/frame.js').Frame} Frame */
/** @typedef {import('./selection.js').Selected} Selected */

const SLOW = 24; // milliseconds
const REST = 120; // milliseconds without a movement
const LEAST_LOCATOR = 36; // pixels, which is around a mark
const SMALL = 14; // pixels of a selected feature that has a mark around it

export class Canvas {
  /**
   * @param {Picture} picture
   * @param {string} label
   */
  constructor(picture, label) {
    this.plane = picture.plane ?? { extent: 0, items: [] };
    this.element = elementOf(tree('svg', { class: 'picture-svg', role: 'img', 'aria-label': `${label}: ${picture.words}` }), document);
    this.body = elementOf(tree('g', { class: 'picture-plane' }), document);
    this.overlay = elementOf(tree('g', { class: 'picture-overlay' }), document);
    this.element.append(this.body, this.overlay);
    /** What is drawn over the plane: a feature that is selected, and the box of another view. */
    this.selected = /** @type {Selected|null} */ (null);
    this.locator = /** @type {Box|null} */ (null);
    this.frame = frameOf({ left: 0, top: 0, right: 1, bottom: 1 }, 1, 1);
    this.drawn = this.frame;
    this.milliseconds = 0; // that drawing took
    this.request = 0;
    this.timer = 0;
  }

  /**
   * Shows a frame, at the next time that the browser draws.
   * @param {Frame} frame
   */
  show(frame) {
    this.frame = frame;
    this.stop();
    this.request = requestAnimationFrame(() => {
      if (this.milliseconds < SLOW) this.draw();
      else {
        this.moveDrawn();
        this.timer = window.setTimeout(() => this.draw(), REST);
      }
    });
  }

  /** Draws what is seen, now. */
  draw() {
    this.stop();
    const begin = performance.now();
    this.drawn = this.frame;
    this.element.setAttribute('viewBox', `0 0 ${this.frame.width} ${this.frame.height}`);
    this.body.replaceChildren(...drawPlane(this.plane, this.frame).map((node) => elementOf(node, document)));
    this.drawOverlay();
    Object.assign(this.element.style, { transform: '', willChange: '' });
    this.milliseconds = performance.now() - begin;
    this.addPainting();
  }

  /** Counts the browser's painting too, which begins after the next request for a frame. */
  addPainting() {
    requestAnimationFrame(() => {
      const begin = performance.now();
      setTimeout(() => { this.milliseconds += performance.now() - begin; });
    });
  }

  /** Draws what lies over the plane. */
  drawOverlay() {
    const shapes = selectedShapes(this.plane.items, this.selected);
    const small = shapes.filter(({ bounds }) => sizeOf(bounds) * this.drawn.scale < SMALL);
    const marks = small.map(({ bounds }) => mark('target', 'selected-mark', {}, middleOf(bounds)));
    const nodes = [...drawItems([...shapes, ...marks], this.drawn), ...this.locatorNodes()];
    this.overlay.replaceChildren(...nodes.map((node) => elementOf(node, document)));
  }

  /** @returns {import('../tree.js').Tree[]} */
  locatorNodes() {
    if (!this.locator) return [];
    const { drawn } = this, middle = middleOf(this.locator);
    const width = Math.max(widthOf(this.locator) * drawn.scale, LEAST_LOCATOR);
    const height = Math.max(heightOf(this.locator) * drawn.scale, LEAST_LOCATOR);
    const x = toLeft(drawn, middle.x) - width / 2, y = toTop(drawn, middle.y) - height / 2;
    if (x + width < 0 || y + height < 0 || x > drawn.width || y > drawn.height || width > drawn.width) return [];
    return [tree('rect', { class: 'picture-locator', x, y, width, height })];
  }

  /** Moves the element with all that was drawn to where it belongs now, which browsers do without painting it anew. */
  moveDrawn() {
    const { drawn, frame } = this;
    const place = `translate(${toLeft(frame, drawn.box.left)}px, ${toTop(frame, drawn.box.top)}px) scale(${frame.scale / drawn.scale})`;
    Object.assign(this.element.style, { transform: place, willChange: 'transform' });
  }

  /** Draws no more. */
  stop() {
    cancelAnimationFrame(this.request);
    clearTimeout(this.timer);
  }
}
