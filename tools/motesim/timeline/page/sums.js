// The tab *Sums*: the totals of a run, by mote, for the net, and by link.
import {DROP, FULL, HALT, KINDS, POST, PRINT, SEND, TAKE} from './data.js';
import {element} from './dom.js';
import {COLLIDED, GONE, LEFT, MEDIUM, RING, delayOf} from './index.js';

/** The outcomes of copies, in the order of the columns. */
const OUTCOMES = ['received', 'lost', 'overflowed', 'collided', 'halted', 'left'];
const OF_FATES = {[MEDIUM]: 1, [RING]: 2, [COLLIDED]: 3, [GONE]: 4, [LEFT]: 5};
const COUNTED = {posted: POST, taken: TAKE, dropped: DROP, refused: FULL, prints: PRINT};
const MOTE_NAMES = ['mote', 'program', 'sent', 'copies', ...OUTCOMES, 'ratio', ...Object.keys(COUNTED), 'halt'];
const LINK_NAMES = ['from', 'to', 'copies', ...OUTCOMES, 'ratio', 'delay'];

/** How many lines there are of each kind. @param {Iterable<number>} lines the kinds of lines */
export function countKinds(lines) {
  const kinds = KINDS.map(() => 0);
  for (const kind of lines) kinds[kind]++;
  return kinds;
}

/** The number of copies, those of each outcome, and the share of those that were due that came.
 * @param {number[]} became @returns {(number|null)[]} */
function copiesRow(became) {
  const copies = became.reduce((sum, it) => sum + it, 0), due = copies - became[5];
  return [copies, ...became, due ? became[0] / due : null];
}

/** The tables of a run, each with its names in the first row. */
export function sums(run) {
  const ofMotes = Array.from(run.begins, () => OUTCOMES.map(() => 0)), ofLinks = new Map();
  const linkOf = (from, to) => {
    const key = from * 65536 + to, link = ofLinks.get(key) || {from, to, became: OUTCOMES.map(() => 0), delay: null};
    ofLinks.set(key, link);
    return link;
  };
  for (let k = 0; k < run.packets; k++) {
    for (const c of run.copiesOf(k)) {
      const to = run.copyTo[c], became = OF_FATES[run.copyFate[c]] || 0, link = linkOf(run.packetSender[k], to);
      ofMotes[to][became]++;
      link.became[became]++;
      link.delay ??= run.copyAfter[c] || null;
    }
  }
  if (run.places) run.hearers.forEach((list, s) => list.forEach(r => { linkOf(s, r).delay = delayOf(run, s, r); }));
  const motes = ofMotes.map((became, mote) => moteRow(run, mote, became));
  const links = [...ofLinks.values()].sort((a, b) => a.from - b.from || a.to - b.to);
  return {motes: [MOTE_NAMES, ...motes, netRow(motes)],
    links: [LINK_NAMES, ...links.map(it => [it.from, it.to, ...copiesRow(it.became), it.delay])]};
}

function moteRow(run, mote, became) {
  const from = run.traceStart[mote], end = run.traceStart[mote + 1], kinds = countKinds(run.kind.subarray(from, end));
  return [mote, run.programs[run.begins[mote]], kinds[SEND], ...copiesRow(became),
    ...Object.values(COUNTED).map(kind => kinds[kind]), kinds[HALT] ? run.at[end - 1] : null];
}

/** @param {any[][]} motes the rows of all motes */
function netRow(motes) {
  const column = name => motes.map(row => row[MOTE_NAMES.indexOf(name)]);
  const total = name => column(name).reduce((sum, it) => sum + it, 0);
  return ['net', '', total('sent'), ...copiesRow(OUTCOMES.map(total)), ...Object.keys(COUNTED).map(total),
    column('halt').filter(it => it !== null).length];
}

/** @param {any[][]} all the names and the rows */
function sumTable([names, ...rows]) {
  const shown = value => String(value === null ? '-' : value % 1 ? value.toFixed(3) : value);
  const row = (name, its, what = '') => element('tr', '', its.map((it, i) =>
    element(name, shown(it), [], {className: names[i]})), {className: what});
  return element('table', '', [element('thead', '', [row('th', names)]),
    element('tbody', '', rows.map(its => row('td', its, its[0])))]);
}

export const fillSums = (box, run) => box.replaceChildren(...Object.values(sums(run)).map(sumTable));
