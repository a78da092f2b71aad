// Wheel, fingers, mouse and keys over an element, as calls. The page can be scrolled over it all the same: one finger is the page's, and
// two are the element's; the wheel is the element's with the control or command key, and after a click into it until it loses the focus.

/**
 * Places and distances are in pixels of the element.
 * @typedef {object} Handlers
 * @property {(dx: number, dy: number) => void} pan what is seen moves by so much
 * @property {(factor: number, x: number, y: number) => void} zoom about a place
 * @property {(x: number, y: number) => void} point the pointer is there
 * @property {() => void} leave the pointer is not over the element
 * @property {(x: number, y: number) => void} click
 * @property {(key: string) => boolean} key whether the key meant something
 */
/** @typedef {{x: number, y: number}} Place */

const CLICK_ROOM = 5; // pixels that a pointer may move in a click
const WHEEL_SPEED = 0.0018;
const PINCH_SPEED = 0.01; // of two fingers on a touchpad, which browsers report as a wheel with the control key
const MOST_PINCH = 0.22; // by one event, so that a mouse's wheel with the control key is no faster than without
const DOUBLE_CLICK = 2;
const LINE = 16, PAGE = 400; // pixels of the wheel's other units

/**
 * @param {HTMLElement} element
 * @param {Handlers} handlers
 * @returns {() => void} takes the listeners away
 */
export function listen(element, handlers) {
  const control = new AbortController();
  listenToPointers(element, handlers, control.signal);
  keepTwoFingers(element, control.signal);
  listenToWheel(element, handlers, control.signal);
  element.addEventListener('keydown', (event) => {
    if (event.ctrlKey || event.metaKey || event.altKey || event.target !== element) return;
    if (handlers.key(event.key)) event.preventDefault();
  }, { signal: control.signal });
  return () => control.abort();
}

/**
 * @param {HTMLElement} element
 * @param {MouseEvent} event
 * @returns {Place}
 */
function placeOf(element, event) {
  const box = element.getBoundingClientRect();
  return { x: event.clientX - box.left, y: event.clientY - box.top };
}

/**
 * @param {HTMLElement} element
 * @param {Handlers} handlers
 * @param {AbortSignal} signal
 */
function listenToPointers(element, handlers, signal) {
  const pointers = /** @type {Map<number, Place>} */ (new Map());
  let moved = 0;
  element.addEventListener('pointerdown', (event) => {
    if (event.button !== 0) return;
    if (pointers.size === 0) moved = 0;
    pointers.set(event.pointerId, placeOf(element, event));
    element.setPointerCapture(event.pointerId);
  }, { signal });
  element.addEventListener('pointermove', (event) => {
    const place = placeOf(element, event), before = pointers.get(event.pointerId);
    handlers.point(place.x, place.y);
    if (!before) return;
    moved += Math.abs(place.x - before.x) + Math.abs(place.y - before.y);
    if (moved <= CLICK_ROOM) return;
    if (event.pointerType === 'touch' && pointers.size === 1) pointers.set(event.pointerId, place);
    else move(pointers, event.pointerId, place, handlers);
  }, { signal });
  element.addEventListener('pointerup', (event) => {
    const place = placeOf(element, event);
    if (pointers.delete(event.pointerId) && pointers.size === 0 && moved <= CLICK_ROOM) handlers.click(place.x, place.y);
  }, { signal });
  element.addEventListener('pointercancel', (event) => pointers.delete(event.pointerId), { signal });
  element.addEventListener('pointerleave', () => handlers.leave(), { signal });
}

/**
 * Has the browser scroll nothing by two fingers.
 * @param {HTMLElement} element
 * @param {AbortSignal} signal
 */
function keepTwoFingers(element, signal) {
  const keep = (/** @type {TouchEvent} */ event) => {
    if (event.touches.length > 1 && event.cancelable) event.preventDefault();
  };
  element.addEventListener('touchstart', keep, { signal, passive: false });
  element.addEventListener('touchmove', keep, { signal, passive: false });
}

/**
 * @param {HTMLElement} element
 * @param {Handlers} handlers
 * @param {AbortSignal} signal
 */
function listenToWheel(element, handlers, signal) {
  let wasClicked = false;
  element.addEventListener('pointerdown', (event) => { wasClicked ||= event.button === 0 && event.pointerType !== 'touch'; }, { signal });
  element.addEventListener('blur', () => { wasClicked = false; }, { signal });
  element.addEventListener('wheel', (event) => {
    if (!event.ctrlKey && !event.metaKey && !wasClicked) return;
    event.preventDefault();
    const { x, y } = placeOf(element, event);
    handlers.zoom(Math.exp(-turned(event)), x, y);
  }, { signal, passive: false });
  element.addEventListener('dblclick', (event) => {
    const { x, y } = placeOf(element, event);
    handlers.zoom(DOUBLE_CLICK, x, y);
  }, { signal });
}

/**
 * How far a wheel was turned, as the logarithm of what it zooms by; more than 0 shows more.
 * @param {WheelEvent} event
 * @returns {number}
 */
function turned({ deltaY, deltaMode, ctrlKey }) {
  const pixels = deltaY * (deltaMode === 1 ? LINE : deltaMode === 2 ? PAGE : 1);
  return ctrlKey ? Math.min(Math.max(pixels * PINCH_SPEED, -MOST_PINCH), MOST_PINCH) : pixels * WHEEL_SPEED;
}

/**
 * One pointer pans; two zoom by their distance and pan by their middle.
 * @param {Map<number, Place>} pointers
 * @param {number} id
 * @param {Place} place
 * @param {Handlers} handlers
 */
function move(pointers, id, place, handlers) {
  const before = pair(pointers);
  pointers.set(id, place);
  const after = pair(pointers);
  handlers.pan(after.x - before.x, after.y - before.y);
  if (pointers.size > 1 && before.distance > 0) handlers.zoom(after.distance / before.distance, after.x, after.y);
}

/**
 * The middle of the first two pointers and their distance.
 * @param {Map<number, Place>} pointers
 * @returns {Place & {distance: number}}
 */
function pair(pointers) {
  const places = [...pointers.values()], a = places[0], b = places[1] ?? a;
  return { x: (a.x + b.x) / 2, y: (a.y + b.y) / 2, distance: Math.hypot(a.x - b.x, a.y - b.y) };
}
