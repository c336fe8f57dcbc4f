// The sentence above the run: what it showed, and what the checks say of it; or why there is none.
import {byId, makeButton} from '../../timeline/page/dom.js';
import {Refused, page} from '../../timeline/page/stage.js';

const {web} = page;

/** Shows a sentence with its buttons: the name of each, what it does, and what it is called. */
export function say(words, is = '', offers = []) {
  byId('said').textContent = words;
  byId('sentence').dataset.is = is;
  // (the buttons that are there stay, with the keyboard's focus)
  if (web.outcome.buttons === offers) return;
  web.outcome.buttons = offers;
  byId('offers').replaceChildren(...offers.map(([name, does, id = '']) => makeButton(name, does, {id})));
}

/** Says what a run showed, and before that what the checks say of it. */
export function sayOutcome() {
  const {words, is, offers} = web.outcome, {checks} = page;
  say([checks.words, checks.words && is === 'same' ? '' : words].filter(Boolean).join(' '), checks.is || is, offers);
}

/** Keeps what a run showed, and says it. */
export function setOutcome(words, is = '', offers = []) {
  Object.assign(web.outcome, {words, is, offers});
  sayOutcome();
}

/** The button that goes back, if there is a text before. */
export const reverting = () => web.history.before ? [['Undo', () => byId('undo').click(), 'revert']] : [];

/** Does something that may be refused: then says why, and returns null. */
export async function attempt(work) {
  try {
    return await work();
  } catch (fault) {
    if (!(fault instanceof Refused)) throw fault;
    say(fault.message, 'bad');
    return null;
  }
}
