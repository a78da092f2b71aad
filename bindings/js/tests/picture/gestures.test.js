import assert from 'node:assert/strict';
import { test } from 'node:test';
import { listen } from '../../src/picture/view/gestures.js';

/** An element at (100, 50) of the window, as far as the listeners use one, and the calls that they make. */
class Surface extends EventTarget {
  /** @type {unknown[][]} */
  calls = [];

  getBoundingClientRect() {
    return { left: 100, top: 50 };
  }

  setPointerCapture() {}

  /**
   * @param {string} type
   * @param {object} properties
   */
  send(type, properties) {
    const event = Object.assign(new Event(type, { cancelable: true }), properties);
    this.dispatchEvent(event);
    return event;
  }

  /**
   * @param {string} type
   * @param {number} pointerId
   * @param {number} x of the window
   * @param {number} y
   * @param {'mouse'|'touch'} pointerType
   */
  pointer(type, pointerId, x, y, pointerType = 'mouse') {
    return this.send(`pointer${type}`, { pointerId, clientX: x, clientY: y, button: 0, pointerType });
  }

  /**
   * @param {string} type
   * @param {number} pointerId
   * @param {number} x of the window
   * @param {number} y
   */
  finger(type, pointerId, x, y) {
    return this.pointer(type, pointerId, x, y, 'touch');
  }

  /**
   * The wheel at (130, 70) of the window.
   * @param {object} properties
   */
  wheel(properties) {
    return this.send('wheel', { deltaY: -100, deltaMode: 0, ctrlKey: false, metaKey: false, clientX: 130, clientY: 70, ...properties });
  }
}

/** A surface that is listened to, and how to end that. */
function surface() {
  const it = new Surface();
  const call = (/** @type {string} */ name) => (/** @type {unknown[]} */ ...values) => { it.calls.push([name, ...values]); };
  const stop = listen(/** @type {any} */ (it), {
    pan: call('pan'), zoom: call('zoom'), point: () => {}, leave: call('leave'), click: call('click'),
    key: (key) => { it.calls.push(['key', key]); return key === '+'; },
  });
  return { it, stop };
}

test('a pointer that is moved pans, and clicks nothing', () => {
  const { it } = surface();
  it.pointer('down', 1, 200, 200);
  it.pointer('move', 1, 220, 190);
  it.pointer('up', 1, 220, 190);
  assert.deepEqual(it.calls, [['pan', 20, -10]]);
});

test('a pointer that stays clicks, at its place in the element', () => {
  const { it } = surface();
  it.pointer('down', 1, 200, 200);
  it.pointer('move', 1, 201, 201);
  it.pointer('up', 1, 201, 201);
  assert.deepEqual(it.calls, [['click', 101, 151]]);
});

test('a pointer that isn\'t down does neither', () => {
  const { it } = surface();
  it.pointer('move', 1, 220, 190);
  it.pointer('up', 1, 220, 190);
  it.send('pointerdown', { pointerId: 2, clientX: 200, clientY: 200, button: 2 });
  it.pointer('move', 2, 220, 190);
  it.pointer('leave', 1, 0, 0);
  assert.deepEqual(it.calls, [['leave']]);
});

test('two fingers zoom by their distance about their middle', () => {
  const { it } = surface();
  it.finger('down', 1, 180, 150);
  it.finger('down', 2, 220, 150);
  it.finger('move', 2, 260, 150);
  assert.deepEqual(it.calls, [['pan', 20, 0], ['zoom', 2, 120, 100]]);
});

test('one finger moves nothing, since it scrolls the page', () => {
  const { it } = surface();
  it.finger('down', 1, 180, 150);
  it.finger('move', 1, 180, 190);
  it.finger('up', 1, 180, 190);
  assert.deepEqual(it.calls, []);
});

test('a tap of a finger clicks', () => {
  const { it } = surface();
  it.finger('down', 1, 180, 150);
  it.finger('up', 1, 180, 150);
  assert.deepEqual(it.calls, [['click', 80, 100]]);
});

test('a finger that is left of two moves nothing, and a second one goes on from where both are', () => {
  const { it } = surface();
  it.finger('down', 1, 180, 150);
  it.finger('down', 2, 220, 150);
  it.finger('cancel', 1, 180, 150);
  it.finger('move', 2, 260, 150);
  assert.deepEqual(it.calls, []);
  it.finger('down', 3, 240, 150);
  it.finger('move', 3, 220, 150);
  assert.deepEqual(it.calls, [['pan', -10, 0], ['zoom', 2, 140, 100]]);
});

test('the browser scrolls nothing by two fingers, and does by one', () => {
  const { it } = surface();
  for (const type of ['touchstart', 'touchmove']) {
    assert.ok(!it.send(type, { touches: [{}] }).defaultPrevented);
    assert.ok(it.send(type, { touches: [{}, {}] }).defaultPrevented);
  }
});

/** @param {Surface} it */
function assertWheelZooms(it) {
  it.calls.length = 0;
  const event = it.wheel({});
  const [[name, factor, x, y]] = it.calls;
  assert.deepEqual([name, x, y], ['zoom', 30, 20]);
  assert.ok(Number(factor) > 1.1 && Number(factor) < 1.3);
  assert.ok(event.defaultPrevented);
  it.wheel({ deltaY: 100 });
  assert.ok(Math.abs(Number(it.calls[1][1]) * Number(factor) - 1) < 1e-12); // back to where it was
}

/** @param {Surface} it */
function assertWheelScrolls(it) {
  it.calls.length = 0;
  assert.ok(!it.wheel({}).defaultPrevented);
  assert.deepEqual(it.calls, []);
}

test('the wheel alone scrolls the page', () => assertWheelScrolls(surface().it));

for (const key of ['ctrlKey', 'metaKey']) {
  test(`the wheel with ${key} zooms about the pointer, and the page stays where it is`, () => {
    const { it } = surface();
    assert.ok(it.wheel({ [key]: true }).defaultPrevented);
    const [[name, factor, x, y]] = it.calls;
    assert.deepEqual([name, x, y], ['zoom', 30, 20]);
    assert.ok(Number(factor) > 1.1);
  });
}

test('two fingers on a touchpad zoom by small steps, and a mouse with the control key as without it', () => {
  const { it } = surface();
  it.pointer('down', 1, 200, 200);
  for (const [deltaY, ctrlKey] of [[-5, true], [-120, true], [-120, false]]) it.wheel({ deltaY, ctrlKey });
  const [pinch, withKey, without] = it.calls.map(([, factor]) => Number(factor));
  assert.ok(pinch > 1.04 && pinch < 1.06, `${pinch}`);
  assert.ok(Math.abs(withKey / without - 1) < 0.05, `${withKey} ${without}`);
});

test('the wheel zooms about the pointer after a click, until the focus is lost', () => {
  const { it } = surface();
  it.pointer('down', 1, 200, 200);
  it.pointer('up', 1, 200, 200);
  assertWheelZooms(it);
  it.send('blur', {});
  assertWheelScrolls(it);
});

test('a tap leaves the wheel to the page', () => {
  const { it } = surface();
  it.finger('down', 1, 200, 200);
  it.finger('up', 1, 200, 200);
  assertWheelScrolls(it);
});

test('a double click zooms in', () => {
  const { it } = surface();
  it.send('dblclick', { clientX: 130, clientY: 70 });
  assert.deepEqual(it.calls, [['zoom', 2, 30, 20]]);
});

test('keys are the element\'s own, without the control key', () => {
  const { it } = surface();
  const keys = { ctrlKey: false, metaKey: false, altKey: false };
  assert.ok(it.send('keydown', { ...keys, key: '+' }).defaultPrevented);
  assert.ok(!it.send('keydown', { ...keys, key: 'x' }).defaultPrevented);
  it.send('keydown', { ...keys, ctrlKey: true, key: '+' });
  assert.deepEqual(it.calls, [['key', '+'], ['key', 'x']]);
});

test('listeners are taken away', () => {
  const { it, stop } = surface();
  stop();
  it.send('dblclick', { clientX: 130, clientY: 70 });
  it.pointer('leave', 1, 0, 0);
  assert.deepEqual(it.calls, []);
});
