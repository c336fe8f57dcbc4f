// The differences between two runs: the first of all, the moment of the first one in each lane, their effect in a
// sentence, why the later one lacks a print, and on the lanes a line, a flag, and a stroke in each lane.
import {chainOf} from '../../timeline/page/causes.js';
import {COLLIDE, FIELDS, HALT, PRINT, RECV, SEND} from '../../timeline/page/data.js';
import {chooseLine, chooseMote} from '../../timeline/page/details.js';
import {count, digits} from '../../timeline/page/dom.js';
import {redraw} from '../../timeline/page/draw.js';
import {box, drawPath, fill, setFont, write} from '../../timeline/page/forms.js';
import {FATE_WORDS} from '../../timeline/page/index.js';
import {AXIS} from '../../timeline/page/layout.js';
import {setNow} from '../../timeline/page/play.js';
import {page} from '../../timeline/page/stage.js';
import {countKinds} from '../../timeline/page/sums.js';
import {showTime} from '../../timeline/page/time.js';

/** The number of the log of the medium, which is used like the number of a mote, and is behind all motes. */
const MEDIUM = Infinity;
const WORDS = 'first difference', LANE = 26;
const NOUNS = {[SEND]: 'packet', [COLLIDE]: 'collided copy', [PRINT]: 'print', [HALT]: 'halted mote'};

/** The lines of a mote, or the packets: from, to. @returns {[number, number]} */
const stretch = (run, mote) => mote === MEDIUM ? [0, run.packets] :
  mote < run.begins.length ? [run.traceStart[mote], run.traceStart[mote + 1]] : [0, 0];

const sameLine = (a, b, i, j) => a.kind[i] === b.kind[j] && a.at[i] === b.at[j] &&
  FIELDS[a.kind[i]].every(name => a.field(i, name) === b.field(j, name));

const samePacket = (a, b, i, j) => a.packetText(i) === b.packetText(j);

/** The first difference of a mote's traces, or of the logs: its moment, and its place in the trace or in the log; null
 * if they are the same.
 * @returns {{at: number, mote: number, place: number}|null} */
function firstOf(a, b, mote) {
  const [from, to] = stretch(a, mote), [begin, end] = stretch(b, mote), same = mote === MEDIUM ? samePacket : sameLine;
  let place = 0;
  while (from + place < to && begin + place < end && same(a, b, from + place, begin + place)) place++;
  if (from + place === to && begin + place === end) return null;
  const moment = (run, item, behind) =>
    item >= behind ? Infinity : mote === MEDIUM ? run.packetAt[item] : run.at[item];
  return {at: Math.min(moment(a, from + place, to), moment(b, begin + place, end)), mote, place};
}

/** How two runs differ, in the form in which the page shows it: the first difference of all, and the moments of the
 * first ones of the motes.
 * @param {any} a the earlier run @param {any} b the run that is shown */
export function difference(a, b) {
  const motes = a.begins.length > b.begins.length ? a.begins : b.begins;
  const found = [...motes.keys(), MEDIUM].flatMap(mote => firstOf(a, b, mote) || []);
  found.sort((one, other) => one.at - other.at || one.mote - other.mote);
  const [first] = found, programs = run => Array.from(run.begins, it => run.programs[it]).join();
  const inMedium = Boolean(first) && first.mote === MEDIUM;
  return {same: !found.length && a.left === b.left && programs(a) === programs(b),
    first: first ? {at: first.at, mote: inMedium ? senderOf(a, b, first.place) : first.mote,
      index: inMedium ? -1 : first.place, inMedium} : null,
    parts: found.filter(it => it.mote !== MEDIUM).map(it => [it.mote, it.at])};
}

/** The sender of the first packet at which two logs differ. */
function senderOf(a, b, place) {
  const [first] = [a, b].filter(run => place < run.packets).sort((one, other) =>
    one.packetAt[place] - other.packetAt[place] || one.packetSender[place] - other.packetSender[place]);
  return first.packetSender[place];
}

/** The first print that became another one, in words; '' if none did. */
function printInWords(run, before) {
  const found = run.prints.flatMap((lines, mote) => {
    const others = before.prints[mote] || [], place = lines.findIndex((line, i) =>
      !sameLine(run, before, line, others[i]));
    return place >= 0 && others[place] ? [{mote, line: lines[place], other: others[place]}] : [];
  }).sort((a, b) => run.at[a.line] - run.at[b.line]);
  if (!found.length) return '';
  const [{mote, line, other}] = found, isValue = run.w[line] !== before.w[other];
  return `Mote ${mote} prints ${run.w[line]} at ${run.at[line]} instead of ${isValue ? `${before.w[other]} at ` : ''}${
    before.at[other]}.`;
}

/** The first number or print that differs between two runs, in words; otherwise that their lines do. */
function numbersInWords(run, before) {
  const ours = countKinds(run.kind), others = countKinds(before.kind);
  const kind = [SEND, COLLIDE, PRINT, HALT].find(it => ours[it] !== others[it]);
  if (kind !== undefined) return `${count(ours[kind], NOUNS[kind])} instead of ${digits(others[kind])}.`;
  const print = printInWords(run, before);
  if (print) return print;
  return run.rows === before.rows ? 'As many packets and prints as before.' :
    `A report of ${count(run.rows, 'line')} instead of ${digits(before.rows)}.`;
}

/** How a run differs from the one before the change. @param {any} found their difference */
export function effectInWords(run, before, {same, first}) {
  if (same) return 'This change has no effect: the report is the same.';
  if (!first) return 'The motes run other programs, and write the same lines.';
  const ends = run.end === before.end ? '' : ` It ends at ${run.end} instead of ${before.end}.`;
  return numbersInWords(run, before) + ends + (first.at > run.end ? '' : ` First different at moment ${first.at}, ${
    first.inMedium ? 'in the packets' : `at mote ${first.mote}`}.`);
}

/** The first print of a mote that a run lacks, as a line of the earlier run; -1 if there is none. */
function missingPrint(before, run, mote) {
  let next = 0;
  return (before.prints[mote] || []).find(line => {
    const own = run.prints[mote]?.[next], isThere = own !== undefined && run.w[own] === before.w[line] &&
      run.process(run.p[own]) === before.process(before.p[line]);
    if (isThere) next++;
    return !isThere;
  }) ?? -1;
}

/** Why a mote lacks a print that it had in an earlier run: in words, with the line of the run that came last on the
 * way to it. Null if it lacks none. */
export async function whyMissing(before, run, mote) {
  const line = missingPrint(before, run, mote);
  if (line < 0) return null;
  const hops = (await chainOf(before, line)).filter(hop => hop.line >= 0).reverse();
  const place = hops.findIndex(hop => run.find(hop) < 0), lost = hops[place], last = hops[place - 1];
  const head = `Mote ${mote} doesn't print ${before.w[line]}, as it did at ${before.at[line]}`;
  if (!lost || !last) return {words: `${head}.`, line: -1};
  const from = run.find(last), k = lost.mote !== last.mote && before.kind[lost.line] === RECV ?
    run.packetOf(before.p[lost.line], before.x[lost.line]) : -1, copy = k >= 0 ? run.copyFor(k, lost.mote) : -1;
  const why = copy < 0 ? `mote ${lost.mote} doesn't write "${lost.words}" at ${lost.at}` :
    `packet ${run.packetNumber[k]} of mote ${last.mote} to mote ${lost.mote}, sent at ${run.packetAt[k]}, was ${
      FATE_WORDS[run.copyFate[copy]]}`;
  return {line: from, words: `${head}: ${why}.`};
}

/** Brings the first difference into view, and selects its line. */
export function goToDifference() {
  const {first} = page.differs, [pane] = page.panes;
  if (!first || !pane || first.mote >= pane.run.begins.length) return;
  const {run} = pane, {mote, at, index} = first, from = run.traceStart[mote], end = run.traceStart[mote + 1];
  const line = Math.min(end - 1, index < 0 ? run.lineAt(mote, at) : from + index);
  showTime(Math.max(0, at - 15), Math.min(page.time.end, at + 30));
  setNow(at);
  if (pane.lane < LANE) pane.zoomLanes(LANE / pane.lane);
  if (end > from && run.at[line] === at) chooseLine(pane, line, true); else chooseMote(pane, mote, true);
  pane.reveal(mote);
  redraw();
}

/** Draws a line at the first difference, a flag at its mote, and a stroke in each lane from its own one on. */
export function drawDifference(pane) {
  const {first, parts} = page.differs, {context: c, gutter, width, height, lane} = pane;
  if (!first) return;
  c.globalAlpha = 0.75;
  for (const [mote, at] of parts) {
    if (mote >= pane.order.length || !pane.sees(mote)) continue;
    const x = Math.max(gutter, pane.x(at)), y = pane.laneTop(mote) + lane - Math.min(2.5, lane * 0.3);
    box(c, 'mark', x, y, Math.max(0, width - x), Math.min(1.5, lane * 0.2));
  }
  c.globalAlpha = 1;
  const x = pane.x(first.at);
  if (x < gutter || x > width) return;
  drawPath(c, [x, AXIS, x, height], 'mark', 1.4, 1, [5, 4]);
  if (first.mote < pane.order.length) drawFlag(pane, x, pane.laneTop(first.mote) + 9);
}

function drawFlag({context: c, width, height}, x, wanted) {
  const y = Math.max(AXIS + 9, Math.min(height - 10, wanted));
  setFont(c, 11, 'left', 'middle', 'bold');
  const wide = c.measureText(WORDS).width + 12, left = x + wide > width ? x - wide : x;
  c.beginPath();
  c.roundRect(left, y - 8, wide, 16, 3);
  fill(c, 'mark');
  write(c, WORDS, left + 6, y, 'paper');
}
