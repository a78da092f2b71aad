// The line that says what the page does, which screen readers read out, and the button that stops a check.

import { byId } from './tools/dom.js';
import { timeText } from './tools/text.js';

const SECOND = 1000;

export class Status {
  #line = byId('status', HTMLElement);
  #elapsed = byId('elapsed', HTMLElement);
  #stop = byId('stop', HTMLButtonElement);
  #began = 0;
  /** @type {ReturnType<typeof setInterval>|undefined} */
  #clock;

  /** @param {() => void} stop is called where the user stops the check */
  constructor(stop) {
    this.#stop.addEventListener('click', stop);
  }

  /**
   * @param {'loading'|'ready'|'working'|'done'|'failed'} state of the page; where it is done, the answer says the same, and the line is
   *   for screen readers alone
   * @param {string} sentence
   */
  say(state, sentence) {
    document.body.dataset.state = state;
    this.announce(sentence);
    const isWorking = state === 'working';
    this.#stop.hidden = !isWorking;
    if (isWorking && this.#clock === undefined) this.#startClock();
    if (!isWorking) this.#stopClock();
  }

  /**
   * Has a sentence read out, in whatever state the page is.
   * @param {string} sentence
   */
  announce(sentence) {
    if (this.#line.textContent !== sentence) this.#line.textContent = sentence;
  }

  // The time that has gone by isn't read out: it changes each second.
  #startClock() {
    this.#began = performance.now();
    this.#clock = setInterval(() => {
      this.#elapsed.textContent = timeText(performance.now() - this.#began).replace(/\.\d/, '');
    }, SECOND);
  }

  #stopClock() {
    clearInterval(this.#clock);
    this.#clock = undefined;
    this.#elapsed.textContent = '';
  }
}
