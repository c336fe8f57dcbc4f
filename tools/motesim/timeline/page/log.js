// The tab *Log*: the lines of all motes in order of time, and steps along them. A search, of words that must all fit
// one line, leaves the lines that fit it, which have rings on the lanes.
import {DROP, FIELDS, KINDS, LOST, SEND, TAKE} from './data.js';
import {chooseLine, showCard} from './details.js';
import {byId, count, digits, lineButton, list, onSubmit} from './dom.js';
import {redraw} from './draw.js';
import {MEDIUM} from './index.js';
import {page} from './stage.js';

const {logged, chosen} = page, MOST_LISTED = 200;
/** The columns whose names a search finds, by the kind of a line; a take and a drop have those of their post. */
const NAMED = FIELDS.map((its, kind) => kind === TAKE || kind === DROP ? [...'pew'] :
  its.filter(it => 'pew'.includes(it)));

/** The test that a word is, as a function of a line, with how many words belong to it; null if the word means nothing
 * in this run.
 * @param {any} run @param {string} word @param {string} next
 * @returns {[((line: number) => any)|null, number]} */
function asks(run, word, next) {
  const number = /^\d+$/.test(next) ? Number(next) : -1, span = word === 'at' && /^(\d+)(?:\.\.(\d+))?$/.exec(next);
  if (word === 'mote' && number >= 0) return [line => run.moteOf(line) === number, 2];
  if (word === 'from' && number >= 0)
    return [line => FIELDS[run.kind[line]].includes('s') && run.p[line] === number, 2];
  if (span) return [line => run.at[line] >= Number(span[1]) && run.at[line] <= Number(span[2] || span[1]), 2];
  const kind = KINDS.findIndex(it => word === it || word === `${it}s`);
  const names = [...run.processes, ...run.events, 'all', 'timer', 'silent'];
  if (kind < 0 && !/^\d+$/.test(word) && !names.includes(word)) return [null, 1];
  return [line => run.kind[line] === kind || word === 'silent' && run.silent[line] ||
    kind === LOST && run.kind[line] === SEND && losesCopy(run, line) ||
    NAMED[run.kind[line]].some(name => String(run.field(line, name)) === word), 1];
}

const losesCopy = (run, line) =>
  run.copiesOf(run.packetOf(run.moteOf(line), run.x[line])).some(copy => run.copyFate[copy] === MEDIUM);

/** The lines of a run in order of time that fit all words of a text; or null, with the word that means nothing in this
 * run. */
export function findLines(run, text) {
  const words = text.toLowerCase().split(/\s+/).filter(Boolean), tests = [];
  while (words.length) {
    const [test, taken] = asks(run, words[0], words[1] || '');
    if (!test) return [null, words[0]];
    tests.push(test);
    words.splice(0, taken);
  }
  return [orderOf(run).filter(line => tests.every(test => test(line))), ''];
}

/** All lines of a run by moment, then by mote. */
export function orderOf(run) {
  if (run.chronology) return run.chronology;
  const {at} = run, starts = new Uint32Array(run.end + 2), order = new Uint32Array(run.count);
  for (const moment of at) starts[moment + 1]++;
  for (let moment = 0; moment <= run.end; moment++) starts[moment + 1] += starts[moment];
  at.forEach((moment, line) => { order[starts[moment]++] = line; });
  run.chronology = order;
  return order;
}

/** Takes the lines that fit the search, and lists them. */
function search() {
  const text = byId('log-asked').value.trim(), {panes} = page;
  if (!panes.length) return;
  const found = panes.map(({run}) => findLines(run, text)), [[lines, unknown]] = found, [{run}] = panes;
  Object.assign(logged, {run, first: Infinity, lines: lines || [], rings: text ? found.map(([its]) => its || []) : []});
  byId('log-counts').textContent = lines ? `${digits(lines.length)} of ${count(run.count, 'line')}` :
    `No kind, process or event has the name ${unknown}.`;
  listLines();
  redraw();
}

/** The selected line, if it is one of the first pane; or -1. */
const lineHere = () => chosen.pane === page.panes[0] ? chosen.line : -1;

/** The place in the log of the selected line, or of the first one at the moment that is shown or later. */
function placeNow() {
  const {run: {at}, lines} = logged, line = lineHere(), now = line < 0 ? Math.floor(page.play.now) : at[line];
  const place = lines.findIndex(it => at[it] > now || at[it] === now && it >= line);
  return place < 0 ? lines.length : place;
}

/** Lists the lines around the selection, and marks it. */
function listLines() {
  const {run, lines} = logged, now = placeNow(), box = byId('log-lines'), panel = byId('log');
  logged.times = chosen.times;
  if (now < logged.first || now >= logged.first + MOST_LISTED) {
    logged.first = Math.max(0, Math.min(now - MOST_LISTED / 2, lines.length - MOST_LISTED));
    box.replaceChildren(...list('ol', Array.from(lines.slice(logged.first, logged.first + MOST_LISTED), line =>
      lineButton(`mote ${run.moteOf(line)}`, run.text(line), '', false, () => {
        chooseLine(page.panes[0], line, true);
        showCard();
      }))).children);
  }
  box.querySelector('[aria-current]')?.removeAttribute('aria-current');
  const item = box.children[Math.min(now - logged.first, box.children.length - 1)];
  if (!item) return;
  if (lines[now] === lineHere()) item.firstChild.setAttribute('aria-current', 'true');
  const {top, bottom} = panel.getBoundingClientRect(), at = item.getBoundingClientRect();
  if (at.top < top || at.bottom > bottom) panel.scrollTop += at.top - (top + bottom) / 2;
}

export function walkLog(by) {
  const [pane] = page.panes;
  if (logged.run !== pane.run) search();
  const {lines} = logged, now = placeNow(), next = by > 0 && lines[now] !== lineHere() ? now : now + by;
  if (lines.length) chooseLine(pane, lines[(next + lines.length) % lines.length], true);
}

export function beginLog() {
  onSubmit('log-form', search);
  // (the tab was opened, another run is shown, or something else was selected)
  page.followers.push(({number, run}) => {
    if (number || byId('log').hidden && !byId('log-asked').value) return;
    if (logged.run !== run) search();
    else if (logged.times !== chosen.times) listLines();
  });
}
