// Elements of the page, and numbers with their nouns.
import {page} from './stage.js';

/** A number with commas between thousands. */
export const digits = number => number.toLocaleString('en');

/** A number with its noun, in the plural unless it is 1: `3 packets`, `1 copy`, `2 copies`. */
export function count(number, noun) {
  const plural = number === 1 ? noun : noun.endsWith('y') ? `${noun.slice(0, -1)}ies` : `${noun}s`;
  return `${digits(number)} ${plural}`;
}

/** @type {(id: string) => any} */
export const byId = id => document.getElementById(id);

/** A new element with a text, with others inside, and with properties and attributes. @returns {any} */
export function element(name, text = '', inside = [], its = {}) {
  const made = document.createElement(name);
  for (const [key, value] of Object.entries(its)) {
    if (key in made) made[key] = value; else made.setAttribute(key, value);
  }
  if (text) made.textContent = text;
  made.append(...inside);
  return made;
}

/** A list of items: `ul` or `ol`. */
export const list = (name, items) => element(name, '', items.map(item => element('li', '', [item])));

export const makeButton = (name, act, its = {}) =>
  element('button', name, [], {type: 'button', onclick: act, ...its});

/** Makes the buttons with these ids do something. @param {Record<string, () => any>} does */
export function onClick(does) {
  for (const [id, act] of Object.entries(does)) byId(id).addEventListener('click', act);
}

export function onSubmit(id, act) {
  byId(id).addEventListener('submit', event => {
    event.preventDefault();
    act();
  });
}

/** A place in the file of the programs, which a click shows. */
function filePlace(text, line) {
  const go = event => {
    if (event.key && event.key !== 'Enter' && event.key !== ' ') return;
    event.preventDefault();
    event.stopPropagation();
    page.goToLine(line);
  };
  return element('span', text, [], {className: 'place', tabIndex: 0, title: `Go to line ${line}`, role: 'link',
    onclick: go, onkeydown: go});
}

/** A text in pieces, in which places in the file of the programs can be clicked. */
export function withPlaces(text) {
  const words = Object.keys(page.places).find(it => text.includes(it));
  if (!words) return [text];
  const [before, ...after] = text.split(words);
  return [...withPlaces(before), filePlace(words, page.places[words]), ...withPlaces(after.join(words))];
}

/** A line of the report as a button: its place, its text, and a remark. */
export const lineButton = (where, text, remark, isCurrent, act) => element('button', '', [
  element('span', where, [], {className: 'where'}), element('code', '', withPlaces(text)),
  ...remark ? [element('span', '', withPlaces(remark), {className: 'what'})] : [],
], {type: 'button', className: 'line', onclick: act, ...isCurrent && {'aria-current': 'true'}});

/** The browser's storage, or that of the tab (`session`), which may refuse. @param {(storage: Storage) => any} work */
export function stored(work, where = 'local') {
  try {
    return work(where === 'local' ? localStorage : sessionStorage);
  } catch {
    return null;
  }
}

export function handOut(name, parts, type) {
  const href = URL.createObjectURL(new Blob(parts, {type}));
  element('a', '', [], {href, download: name}).click();
  setTimeout(() => URL.revokeObjectURL(href), 10000);
}
