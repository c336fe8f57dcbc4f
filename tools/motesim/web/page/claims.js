// Claims about a run: those that a run or one of its lines suggests, and their words.
import {HALT, PRINT, RECV, SEND, numbers} from '../../timeline/page/data.js';
import {count} from '../../timeline/page/dom.js';
import {tablesOf} from './toml.js';

const MOST_VALUES = 24, MOST_SUGGESTED = 5;

/** Motes in a claim: `1 to 3, 7`; and the motes of such a list. */
function listOf(motes) {
  const parts = /** @type {number[][]} */ ([]);
  for (const mote of motes) {
    const last = parts[parts.length - 1];
    if (last && last[1] === mote - 1) last[1] = mote; else parts.push([mote, mote]);
  }
  return parts.map(([from, to]) => from === to ? from : `${from} to ${to}`).join(', ');
}
const motesIn = list => list.split(', ').flatMap(it => {
  const [from, to = from] = it.split(' to ').map(Number);
  return numbers(from, to + 1);
});

const subject = motes => motes.length === 1 ? `mote ${motes[0]}: ` : `each of motes ${listOf(motes)}: `;

/** The processes of each program of a text; null if all have the same, which claims call by their names. Otherwise
 * claims have their numbers. */
function ownProcesses(text) {
  const lists = Object.entries(tablesOf(text).programs || {}).map(([name, program]) =>
    [name, (/\bprocess\s+([^;]*);/.exec(String(program).replace(/\/\/.*/g, ''))?.[1] || '').trim().split(/\s*,\s*/)]);
  return new Set(lists.map(([, its]) => String(its))).size > 1 ? Object.fromEntries(lists) : null;
}

const programOf = (run, mote) => run.programs[run.begins[mote]];
const inClaim = (own, run, mote, name) => own ? own[programOf(run, mote)].indexOf(name) : name;
const inWords = (own, run, motes, it) => own ?
  [...new Set(motes.map(mote => own[programOf(run, mote)]?.[it] ?? it))].join(' or ') : it;

/** The claims that a line is expected of its mote, and of all motes that have such a line; none for other lines. */
export function claimsOfLine(run, line, text) {
  const mote = run.moteOf(line), kind = run.kind[line], value = ` value ${run.w[line]}`;
  const isSame = it => run.kind[it] === kind && run.w[it] === run.w[line] && run.p[it] === run.p[line];
  const own = ownProcesses(text), called = m => kind === PRINT && inClaim(own, run, m, run.process(run.p[line]));
  const pattern = kind === SEND ? `send${value}` : kind === RECV ? `recv sender ${run.p[line]}${value}` :
    kind === PRINT ? `print process ${called(mote)}${value}` : '';
  const same = pattern ? [...run.begins.keys()].filter(m => called(m) === called(mote) &&
    numbers(run.traceStart[m], run.traceStart[m + 1]).some(isSame)) : [];
  return [...same.length ? [[mote]] : [], ...same.length > 1 ? [same] : []].map(motes =>
    `${subject(motes)}at least 1 line "${pattern}"`);
}

/** Claims that a run keeps, and that its author probably means: what motes print, and that none halts. */
export function suggestions(run, text) {
  const own = ownProcesses(text), groups = /** @type {Map<string, number[]>} */ (new Map());
  for (const [mote, lines] of run.prints.entries()) {
    for (const p of new Set(lines.map(line => run.p[line]))) {
      const values = lines.filter(line => run.p[line] === p).map(line => run.w[line]),
        sorted = [...values].sort((a, b) => a - b);
      if (values.length > MOST_VALUES) continue;
      const test = `the lines "print process ${inClaim(own, run, mote, run.process(p))}" have in ${
        values.join() === sorted.join() ? 'order of time' : 'any order'} exactly the values ${sorted.join(', ')}`;
      groups.set(test, [...groups.get(test) || [], mote]);
    }
  }
  const found = [...groups].sort((a, b) => b[1].length - a[1].length).map(([test, motes]) => subject(motes) + test);
  const all = [...run.begins.keys()], isSafe = !run.kind.includes(HALT);
  return [...found.slice(0, MOST_SUGGESTED), ...isSafe ? [`${subject(all)}exactly 0 lines "halt"`] : [],
    `the net: ${run.packets ? 'at most' : 'exactly'} ${count(run.packets, 'packet')} sent`];
}

/** The forms of claims that have shorter words, and these. Of two parts of a form about a process, it is the first.
 * @type {[RegExp, string][]} */
const FORMS = [
  [/^the lines "print process (?<process>\S+)" have in order of time exactly the values (.*)$/, 'prints just $1 $2'],
  [/^the lines "print process (?<process>\S+)" have in any order exactly the values (.*)$/,
    'prints just $1 $2, in any order'],
  [/^at least 1 line "print process (?<process>\S+) value (\d+)"(.*)$/, 'prints $1 $2$3'],
  [/^at least 1 line "send value (\d+)"(.*)$/, 'sends $1$2'],
  [/^at least 1 line "recv sender (\d+) value (\d+)"(.*)$/, 'receives $2 from mote $1$3'],
  [/^exactly 0 lines "halt"$/, 'never halts'],
];

/** A claim in words, for readers who know the net; the claim itself if it has no shorter words. */
export function wordsOf(claim, run, text) {
  const [, each, list, test] = /^(each of motes|mote) ([^:;]+): ([^;]*)$/.exec(claim) || [],
    [form, words] = FORMS.find(([it]) => it.test(test)) || [];
  if (!form || !words) return claim.replace(/^the net: /, '');
  const motes = motesIn(list), {process} = form.exec(test)?.groups || {}, others = [...run.begins.keys()].filter(m =>
    !motes.includes(m));
  const named = process ? words.replace('$1', inWords(ownProcesses(text), run, motes, process)) : words;
  const said = test.replace(form, named).replace(/ from 0 to (\d+)$/, ' by $1');
  return each === 'mote' ? `mote ${list} ${said}` : others.length > 2 ? `each of motes ${list} ${said}` :
    `every mote${others.length ? ` but ${others.join(' and ')}` : ''} ${said}`;
}
