// The form that asks the checker, over stand-ins for the page's elements.
import assert from 'node:assert/strict';
import { test } from 'node:test';
import { setImmediate } from 'node:timers/promises';

class Stand extends EventTarget {
  textContent = '';
  value = '';
}
const elements = { ask: new Stand(), claim: new Stand(), told: new Stand() };
Object.assign(globalThis, {
  HTMLElement: Stand, HTMLButtonElement: Stand, HTMLTextAreaElement: Stand, document: { getElementById: (/** @type {keyof typeof elements} */ name) => elements[name] },
});
const { ConfirmForm } = await import('../../site/app/answer/confirm.js');

/** A form, and the questions that have no answer yet. */
function formAndQuestions() {
  /** @type {{claim: string, answer: (it: any) => void, fail: (error: Error) => void}[]} */
  const asked = [];
  elements.ask = new Stand();
  const form = new ConfirmForm((claim) => new Promise((answer, fail) => { asked.push({ claim, answer, fail }); }));
  const ask = (/** @type {string} */ claim) => {
    elements.claim.value = claim;
    elements.ask.dispatchEvent(new Event('click'));
  };
  return { form, asked, ask };
}

test('an answer is told, and what went wrong', async () => {
  const { form, asked, ask } = formAndQuestions();
  form.show('{}');
  ask('first');
  assert.equal(elements.told.textContent, 'The checker is at work.');
  asked[0].answer('confirmed');
  await setImmediate();
  assert.equal(elements.told.textContent, 'Confirmed: this fault is true of the tile.');
  ask('second');
  asked[1].fail(new Error('it broke'));
  await setImmediate();
  assert.equal(elements.told.textContent, 'No answer: the page failed with an error (it broke).');
  assert.deepEqual(asked.map(({ claim }) => claim), ['first', 'second']);
});

test('an answer on a tile isn\'t told of the next one', async () => {
  const { form, asked, ask } = formAndQuestions();
  form.show('{}');
  ask('of the tile before');
  form.show('{}');
  asked[0].answer('confirmed');
  await setImmediate();
  assert.equal(elements.told.textContent, '');
});

test('of two questions the later one\'s answer is told', async () => {
  const { form, asked, ask } = formAndQuestions();
  form.show('{}');
  ask('first');
  ask('second');
  asked[1].answer('not confirmed');
  asked[0].answer('confirmed');
  await setImmediate();
  assert.equal(elements.told.textContent, "Not confirmed: this fault isn't true of the tile.");
});
