// Where the reader's texts are kept: the browser's storage, and the address of the page.
import {byId, stored} from '../../timeline/page/dom.js';
import {packed, unpacked} from '../../timeline/page/packing.js';
import {page} from '../../timeline/page/stage.js';

const DRAFTS = 'motesim draft', SESSION = 'motesim session', MOST_DRAFTS = 6, MOST_STEPS = 40;
const FORMAT = 'deflate-raw';
/** The longest text that is opened, in bytes; and the longest part of a link, because longer ones get lost in chats
 * and mails. */
export const LONGEST_TEXT = 1 << 20;
const LONGEST_LINK = 8000;
/** The page without a server, which the studio has beside its own. */
export const HTML = 'motesim.html';

const {web} = page;

/** True in the studio, whose own address is of no use to others. */
export const isServed = () => document.body.classList.contains('served');

/** What tells the texts of this page from those of others, which may share the storage: the text that it was saved
 * with, or the studio's folder. */
const home = () => byId('saved').textContent + web.folder;

/** The reader's last texts, the newest first, one for each document that was opened.
 * @returns {{text: string, name: string, of: string, opened: number}[]} */
export function drafts() {
  const found = stored(it => JSON.parse(it.getItem(DRAFTS) || '[]'));
  return Array.isArray(found) ? found.filter(it => typeof it.text === 'string' && it.of === home()) : [];
}

/** Keeps a text of the document that was `opened` at a time, unless it is the text that was opened. */
export function keepDraft(text, {name, opened} = web.document) {
  const others = drafts().filter(it => it.opened !== opened && it.text !== text).slice(0, MOST_DRAFTS - 1);
  const its = text === web.saved ? [] : [{text, name, of: home(), opened}];
  stored(it => it.setItem(DRAFTS, JSON.stringify([...its, ...others])));
}

/** Keeps the steps of undo and redo for a visit of this address in this tab. */
export function keepSession({steps, now}, address) {
  const first = Math.max(0, now - MOST_STEPS), near = steps.slice(first, now + MOST_STEPS);
  const documents = [...new Set(near.map(it => it.of))];
  const kept = near.map(({run, of, ...step}) => ({...step, of: documents.indexOf(of)}));
  stored(it => {
    it.removeItem(SESSION);
    it.setItem(SESSION, JSON.stringify({at: address, of: home(), documents, steps: kept, now: now - first}));
  }, 'session');
}

/** The steps that were kept for this address; null if there are none. */
export function sessionHere() {
  const found = stored(it => JSON.parse(it.getItem(SESSION) || 'null'), 'session');
  if (!found || found.at !== location.href || found.of !== home()) return null;
  return {steps: found.steps.map(step => ({...step, run: null, of: found.documents[step.of]})), now: found.now};
}

/** The address of this page with a text; null if it is too long for chats and mails. */
export async function linkTo(text) {
  const letters = (await packed(text, FORMAT)).replace(/\+/g, '-').replace(/\//g, '_').replace(/=+$/, '');
  return letters.length > LONGEST_LINK ? null : `${isServed() ? HTML : location.href.split('#')[0]}#t=1.${letters}`;
}

/** The text in the part of an address behind `#`; null if it has none. Fails if a text is cut off, or of another form.
 * @returns {Promise<string|null>} */
async function textIn(hash) {
  const found = /(?:^#?|&)t=(?:1\.([A-Za-z0-9_-]+))?/.exec(hash);
  if (!found) return null;
  const letters = (found[1] || '').replace(/-/g, '+').replace(/_/g, '/');
  return new TextDecoder('utf-8', {fatal: true}).decode(await unpacked(letters, FORMAT, LONGEST_TEXT));
}

/** The text to open with, and where it came from; null for the first example.
 * @returns {Promise<{text: string, name: string, from: 'link'|'page'|'draft'}|null>} */
export async function textToOpen() {
  const linked = await textIn(location.hash), [draft] = drafts(), saved = JSON.parse(byId('saved').textContent);
  if (linked !== null) return {text: linked, name: 'shared.toml', from: 'link'};
  return draft ? {text: draft.text, name: String(draft.name), from: 'draft'} : saved && {...saved, from: 'page'};
}
