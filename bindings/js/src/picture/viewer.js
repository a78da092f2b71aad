// Shows a picture in a figure: one or two views of its plane, its strip, and the table of what it shows.

import { centredOn, meets } from './plane/box.js';
import { classOf, elementOf, tree } from './tree.js';
import { toText } from './index.js';
import { selectedShapes } from './kinds/map.js';
import { stripTree } from './svg.js';
import { controlsOf } from './view/controls.js';
import { installStyles } from './view/layout.js';
import { featureAt, featureOfShape, placeAmong, selectableShapes } from './view/selection.js';
import { View, keysText } from './view/view.js';

/** @typedef {import('./types.js').Picture} Picture */
/** @typedef {import('./types.js').Box} Box */
/** @typedef {import('./view/selection.js').Selected} Selected */
/** @typedef {{onSelect?: (selected: Selected) => void}} Options */

const WIDE = 600; // pixels of a figure that shows two views
const STEP = 1.5;

export class Viewer {
  /**
   * @param {HTMLElement} figure what is in it is replaced
   * @param {Picture} picture
   * @param {Options} [options] onSelect is called where a feature of a map is chosen
   */
  constructor(figure, picture, options = {}) {
    installStyles();
    this.figure = figure;
    this.picture = picture;
    this.onSelect = options.onSelect ?? (() => {});
    this.views = /** @type {View[]} */ ([]);
    this.panes = /** @type {HTMLElement[]} */ ([]);
    this.selectable = selectableShapes(picture);
    this.strip = elementWith('div', 'picture-strip-box');
    this.status = elementWith('p', 'picture-status');
    this.status.setAttribute('role', 'status');
    this.figure.classList.add('picture-figure');
    this.figure.replaceChildren(captionOf(picture), ...(picture.strip ? [this.strip] : []), ...this.viewElements(), ...tableOf(picture));
    this.width = 0; // that it is laid out for
    this.observer = new ResizeObserver(() => this.layOut());
    this.observer.observe(figure);
    this.layOut();
  }

  /**
   * Shows a feature of a map as selected, or none. Where it isn't seen, the map moves to it.
   * @param {Selected|null} selected
   */
  select(selected) {
    const shape = this.selectable[placeAmong(this.selectable, selected)];
    for (const view of this.views) {
      view.canvas.selected = selected;
      view.canvas.drawOverlay();
      if (shape && !meets(shape.bounds, view.layout().box)) view.glideTo(centredOn(shape.bounds, view.box));
    }
  }

  /** Takes all away. */
  destroy() {
    this.observer.disconnect();
    for (const view of this.views) view.destroy();
    this.figure.replaceChildren();
  }

  /** @returns {HTMLElement[]} */
  viewElements() {
    const { plane, box, close, kind, tile } = this.picture;
    if (!plane || !box) return [];
    if (kind === 'map' && tile) this.addView('The map', tile);
    else this.addView('The whole', box);
    if (close) this.addView('Close view', close);
    const host = elementWith('div', 'picture-views');
    host.append(...this.panes);
    return [host, hintOf(this.picture), ...(kind === 'map' ? [this.status] : [])];
  }

  /**
   * @param {string} label
   * @param {Box} box
   */
  addView(label, box) {
    const readout = elementWith('span', 'picture-readout');
    readout.setAttribute('aria-hidden', 'true');
    const view = /** @type {View} */ (new View(this.picture, {
      label, box,
      onPoint: (place) => { readout.textContent = place ? this.pointerText(view, place) : ''; },
      onMove: () => this.showLocator(),
      onClick: (x, y) => this.selectAt(view, x, y),
      onKey: (key) => this.selectByKey(key),
    }));
    view.element.append(readout);
    const pane = elementWith('div', 'picture-pane');
    pane.append(view.element, controlsOf(this.controlsFor(view), `${label}: zoom and place`));
    this.views.push(view);
    this.panes.push(pane);
  }

  /**
   * What is under the pointer.
   * @param {View} view
   * @param {{x: number, y: number}} place in pixels of the view
   * @returns {string}
   */
  pointerText(view, { x, y }) {
    const coordinates = coordinatesText(view.coordinatesAt(x, y), view.layout().scale);
    const box = view.element.getBoundingClientRect();
    const found = this.selectable.length ? featureAt(box.left + x, box.top + y) : null;
    return found ? `${coordinates} layer ${found.layer}, feature ${found.feature}` : coordinates;
  }

  /**
   * @param {View} view
   * @returns {import('./view/controls.js').Control[]}
   */
  controlsFor(view) {
    const { box, close, tile } = this.picture;
    return [
      { text: '+', label: 'Zoom in', act: () => view.zoom(STEP) },
      { text: '−', label: 'Zoom out', act: () => view.zoom(1 / STEP) },
      ...(box ? [{ text: 'Whole', label: 'Show the whole', act: () => view.glideTo(box) }] : []),
      ...(close ? [{ text: 'Close', label: 'Show the place of the fault close by', act: () => view.glideTo(close) }] : []),
      ...(tile ? [{ text: 'Tile', label: 'Show the tile\'s extent', act: () => view.glideTo(tile) }] : []),
      { text: 'Save as SVG', label: 'Save what is seen as an SVG file', act: () => this.save(view) },
    ];
  }

  /** Lays the parts out for the figure's width, and draws what has another size. */
  layOut() {
    const width = this.figure.clientWidth;
    if (width === this.width) return;
    this.width = width;
    if (this.panes[1]) this.panes[1].hidden = width < WIDE;
    for (const view of this.views) view.resize();
    this.showLocator();
    if (this.picture.strip) this.strip.replaceChildren(elementOf(stripTree(this.picture, Math.max(320, width - 2)), document));
  }

  /** Shows in the first view what the second one shows. */
  showLocator() {
    const [whole, close] = this.views;
    if (!close) return;
    whole.canvas.locator = this.panes[1].hidden ? null : close.layout().box;
    whole.canvas.drawOverlay();
  }

  /** @param {View} view */
  save(view) {
    const { plane } = this.picture, { selected } = view.canvas;
    const shown = plane && { ...plane, items: [...plane.items, ...selectedShapes(plane.items, selected)] };
    const file = new Blob([toText({ ...this.picture, plane: shown }, view.box, view.layout())], { type: 'image/svg+xml' });
    const link = document.createElement('a');
    link.href = URL.createObjectURL(file);
    link.download = `${this.picture.kind.replace(/ /g, '-')}.svg`;
    link.click();
    setTimeout(() => URL.revokeObjectURL(link.href), 10000);
  }

  /**
   * Selects the feature at a place of a view.
   * @param {View} view
   * @param {number} x
   * @param {number} y
   */
  selectAt(view, x, y) {
    const box = view.element.getBoundingClientRect();
    const selected = featureAt(box.left + x, box.top + y);
    if (selected) this.choose(selected);
  }

  /**
   * N selects the next feature of a map, P the previous one.
   * @param {string} key
   * @returns {boolean}
   */
  selectByKey(key) {
    const step = { n: 1, p: -1 }[key.toLowerCase()], count = this.selectable.length;
    if (!step || count === 0) return false;
    const place = placeAmong(this.selectable, this.views[0].canvas.selected);
    this.choose(featureOfShape(this.selectable[place < 0 && step < 0 ? count - 1 : (place + step + count) % count]));
    return true;
  }

  /** @param {Selected} selected */
  choose(selected) {
    this.select(selected);
    this.status.textContent = `Feature ${selected.feature} of layer ${selected.layer} is selected.`;
    this.onSelect(selected);
  }
}

/**
 * @template {keyof HTMLElementTagNameMap} Name
 * @param {Name} name
 * @param {string} className
 * @returns {HTMLElementTagNameMap[Name]}
 */
function elementWith(name, className) {
  return Object.assign(document.createElement(name), { className });
}

/**
 * How a picture is zoomed and moved, for what the reader has: a mouse with keys, fingers, or both.
 * @param {Picture} picture
 * @returns {HTMLElement}
 */
function hintOf(picture) {
  const hint = elementWith('p', 'picture-hint');
  const byMouse = elementWith('span', 'picture-hint-mouse'), byFingers = elementWith('span', 'picture-hint-fingers');
  byMouse.textContent = `Zoom by Ctrl and the wheel, or by the wheel after a click. ${keysText(picture)} `;
  byFingers.textContent = 'Zoom and move by two fingers.';
  hint.append(byMouse, byFingers);
  return hint;
}

/**
 * @param {{x: number, y: number}} place
 * @param {number} scale pixels of a unit
 * @returns {string}
 */
function coordinatesText({ x, y }, scale) {
  const digits = scale < 4 ? 0 : scale < 40 ? 1 : scale < 400 ? 2 : 3;
  return `(${x.toFixed(digits)}, ${y.toFixed(digits)})`;
}

/**
 * @param {Picture} picture
 * @returns {HTMLElement}
 */
function captionOf({ title, words }) {
  const caption = elementWith('figcaption', 'picture-caption-box');
  const heading = elementWith('span', 'picture-title'), text = elementWith('span', 'picture-sentence');
  heading.textContent = title;
  text.textContent = words;
  caption.append(heading, text);
  return caption;
}

/**
 * @param {Picture} picture
 * @returns {HTMLElement[]}
 */
function tableOf({ places }) {
  if (places.length === 0) return [];
  const table = elementWith('table', 'picture-places');
  table.createCaption().textContent = 'What the picture shows';
  const body = table.createTBody();
  for (const { name, text, sample } of places) {
    const row = body.insertRow(), header = document.createElement('th');
    header.scope = 'row';
    header.append(...(sample ? [elementOf(sampleOf(sample), document)] : []), name);
    row.append(header);
    row.insertCell().textContent = text;
  }
  return [table];
}

/**
 * A short line in a style.
 * @param {string} style
 * @returns {import('./tree.js').Tree}
 */
function sampleOf(style) {
  const line = tree('path', { class: classOf(`line ${style}`), d: 'M3 6H33' });
  return tree('svg', { class: 'picture-sample', viewBox: '0 0 36 12', width: 36, height: 12, 'aria-hidden': 'true' }, [line]);
}
