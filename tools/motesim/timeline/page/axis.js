// The frame of a pane's lanes: axis, grid, bands, the names of motes, the heads of islands, which say how many packets
// each sent, and when; and the moment that the map shows.
import {lowerBound, numbers} from './data.js';
import {count} from './dom.js';
import {box, colours, setFont, write} from './forms.js';
import {AXIS, HEAD, SMALL_LANE} from './layout.js';
import {page} from './stage.js';
import {niceStep} from './time.js';

/** The moments in view that have a line. */
function moments(pane) {
  const {time} = page, step = niceStep(76 / time.scale), last = Math.min(time.end, pane.moment(pane.width));
  return numbers(Math.max(0, Math.ceil(time.begin / step)), Math.floor(last / step) + 1).map(i => i * step);
}

export function drawAxis(pane) {
  const {context: c, gutter, width} = pane, middle = page.time.scale > 26 ? 0.5 : 0;
  box(c, 'panel', 0, 0, width, AXIS);
  setFont(c, 12, 'center');
  for (const moment of moments(pane)) {
    const x = pane.x(moment);
    if (x < gutter) continue;
    box(c, 'edge', Math.round(x), AXIS - 5, 1, 5);
    const half = c.measureText(String(moment)).width / 2, at = Math.max(pane.x(moment + middle), gutter + half + 1);
    if (at + half < width - 2) write(c, String(moment), at, AXIS / 2, 'quiet');
  }
  c.textAlign = 'left';
  box(c, 'panel', 0, 0, gutter, AXIS);
  write(c, 'moment', 6, AXIS / 2, 'quiet', gutter - 9);
  box(c, 'edge', 0, AXIS - 1, width, 1);
}

/** The grid, and the areas before and after the run. */
export function drawGrid(pane) {
  const {context: c, gutter, width, height} = pane, before = pane.x(0), behind = pane.x(pane.run.end + 1);
  for (const moment of moments(pane)) box(c, 'grid', Math.round(pane.x(moment)), AXIS, 1, height);
  if (before > gutter) box(c, 'panel', gutter, AXIS, before - gutter, height);
  if (behind < width) box(c, 'panel', behind, AXIS, width - behind, height);
}

/** The bands behind the lanes, which tell neighbouring lanes apart. */
export function drawBands(pane, motes) {
  const {context: c, lane, gutter, width} = pane;
  for (const mote of lane >= 5 ? motes : []) {
    const y = pane.laneTop(mote);
    if (pane.place[mote] % 2) box(c, 'band', gutter, y, width, lane);
    if (lane >= SMALL_LANE) box(c, 'grid', gutter, Math.round(y + lane) - 1, width, 1);
  }
}

export function drawNames(pane, motes) {
  const {run, context: c, lane, gutter} = pane, shown = page.chosen.pane === pane ? page.chosen.mote : -1;
  const step = lane >= 11 ? 1 : niceStep(13 / lane), hasPrograms = run.programs.length > 1 && lane >= 30;
  for (const mote of motes) {
    const y = pane.laneTop(mote), isChosen = mote === shown;
    // (the name of the chosen mote is there alone)
    if (!isChosen && (mote % step || shown >= 0 && Math.abs(pane.laneTop(shown) - y) < 11)) continue;
    if (isChosen) box(c, 'halo', 0, y, gutter - 1, Math.max(2, lane));
    setFont(c, 12, 'left', 'middle', isChosen ? 'bold' : '');
    const name = lane >= 11 ? `mote ${mote}` : String(mote);
    write(c, name, 6, y + lane / 2 - (hasPrograms ? 7 : 0), 'ink', gutter - 9);
    if (!hasPrograms) continue;
    setFont(c, 11);
    write(c, run.programs[run.begins[mote]], 6, y + lane / 2 + 8, 'quiet', gutter - 10);
  }
}

/** The numbers of sends and silences of a group in each bin of so many moments in view, unless there are none. */
function binsOf(pane, {sends, silences}, wide) {
  const first = Math.max(0, Math.floor(pane.moment(pane.gutter) / wide));
  return numbers(first, Math.ceil(Math.min(pane.run.end + 1, pane.moment(pane.width)) / wide)).map(bin => {
    const from = bin * wide, to = from + wide, within = its => lowerBound(its, to) - lowerBound(its, from);
    return {from, to, sent: within(sends), quiet: within(silences)};
  }).filter(({sent, quiet}) => sent || quiet);
}

/** Draws a head: the sends and silences of its motes in each bin of moments. */
function drawHead(pane, group, bins, most, words, bars) {
  const {context: c, gutter, width} = pane, y = pane.headTop(group), base = y + HEAD - 2, tall = HEAD - 22;
  if (y > pane.height || y + HEAD < AXIS) return;
  box(c, 'panel', 0, y, width, HEAD);
  box(c, 'edge', 0, y + HEAD - 1, width, 1);
  for (const {from, to, sent, quiet} of bins) {
    const left = Math.max(gutter, pane.x(from)), right = Math.min(width, pane.x(to)), high = sent / most * tall;
    if (right <= left) continue;
    box(c, 'send', left + 0.5, base - high, Math.max(1, right - left - 1), high);
    if (!quiet) continue;
    const more = quiet / most * tall;
    Object.assign(c, {strokeStyle: colours.quiet, lineWidth: 1});
    c.strokeRect(left + 1, base - high - more + 0.5, Math.max(1, right - left - 2), Math.max(1, more - 1));
  }
  setFont(c, 12.5, 'left', 'middle', 'bold');
  write(c, group.name, 6, y + 10, 'ink');
  const from = 16 + c.measureText(group.name).width, room = Math.max(10, width - from - 6);
  setFont(c, 12.5);
  write(c, c.measureText(words + bars).width < room ? words + bars : words, from, y + 10, 'quiet', room);
}

/** Draws the heads of all islands, to one scale. */
export function drawHeads(pane) {
  const {groups} = pane.run, wide = niceStep(9 / page.time.scale), bars = ` (bars: in ${count(wide, 'moment')})`;
  const bins = groups.map(group => binsOf(pane, group, wide)), anySilent = groups.some(group => group.silences.length);
  const most = Math.max(1, ...bins.flat().map(it => it.sent + it.quiet));
  groups.forEach((group, g) =>
    drawHead(pane, group, bins[g], most, headInWords(group.sends.length, group.silences.length, anySilent), bars));
}

/** The head of an island, `1 packet sent, 2 silences`; without silences if no island of the run has one. */
export function headInWords(sent, silences, anySilent) {
  return `${count(sent, 'packet')} sent` + (anySilent ? `, ${count(silences, 'silence')}` : '');
}

/** Moves the mark of the moment that the map shows, which is an element over the lanes. */
export function moveCursor(pane) {
  const {cursor, gutter, width} = pane, {scale} = page.time, x = pane.x(Math.floor(page.play.now));
  const left = Math.max(gutter, x), right = Math.min(width, x + Math.max(1.5, scale));
  cursor.hidden = right < left;
  Object.assign(cursor.style, {transform: `translateX(${left}px)`, width: `${right - left}px`});
  cursor.style.setProperty('--shade', scale > 60 ? '0.08' : scale > 3 ? '0.16' : '0.8');
}
