// The lanes of a pane: a mark for each line. Marks closer than a pixel or two are thinned, and counted.
import {drawArrows, drawChosen} from './arrows.js';
import {drawAxis, drawBands, drawGrid, drawHeads, drawNames} from './axis.js';
import {BOOTS, HALT, KINDS, LEAVE, POST, PRINT, RECV, SEND, START, TAKE, isCall} from './data.js';
import {box, colours, drawPath, ring, setFont, stampOf, stroke, write} from './forms.js';
import {APART, AXIS, FULL_LANE, SMALL_LANE} from './layout.js';
import {drawOverview} from './overview.js';
import {page} from './stage.js';

const MOST_MARKS = 12000, MOST_RINGS = 3000;
/** The kinds of lines without marks in low lanes. */
const LOW = [START, LEAVE, POST, TAKE];

function formOf({kind, silent, e, timerEvent}, line) {
  if (silent[line]) return 'silent';
  return (kind[line] === TAKE || kind[line] === POST) && e[line] === timerEvent ? 'timer' : KINDS[kind[line]];
}

const radiusOf = lane => lane >= FULL_LANE ? Math.max(3, Math.min(6.5, Math.round(lane * 0.17) / 2)) :
  Math.max(2.5, Math.min(5.5, Math.round(lane * 0.5) / 2));

/** Draws a mark, unless another of its form is in the same place, and notes it for clicks. True if it is drawn. */
function putMark({pane, stamps}, form, x, y, r, line) {
  const stamp = stamps[form] ||= {picture: stampOf(form, r, pane.dots), last: -99};
  if (x - stamp.last < Math.max(1.2, r * 0.5)) {
    pane.drawn.thinned++;
    return false;
  }
  stamp.last = x;
  const side = stamp.picture.width / pane.dots;
  pane.context.drawImage(stamp.picture, x - side / 2, y - side / 2, side, side);
  pane.hits.push(x, y, line);
  return true;
}

/** Draws the labels of a lane that cover no later mark and no label before, and counts the values without room.
 * `marks` are the left edges and heights of all marks, of which those from `behind` on are after a label. */
function drawLabels({pane, labels, marks}) {
  const {context: c, drawn} = pane;
  let last = -99;
  for (const {text, x, y, colour, behind} of labels) {
    const end = x + text.length * 6.4, isName = colour === 'run-ink';
    let isFree = x <= pane.width && x >= last;
    for (let i = behind; isFree && i < marks.length && marks[i] < end; i += 2) {
      isFree = Math.abs(marks[i + 1] - y) >= 9;
    }
    if (!isFree) {
      if (colour === 'print') drawn.unlabelled++;
      continue;
    }
    last = end;
    // (the name of a process is in a box of one colour)
    if (!isName) {
      Object.assign(c, {strokeStyle: colours.paper, lineWidth: 3, lineJoin: 'round'});
      c.strokeText(text, x, y);
    }
    write(c, text, x, y, colour);
  }
}

/** Draws the boxes of a turn's runs, and notes the names of processes that fit into them. A run goes from a start or
 * take to the next; the runs of a narrow turn have one box. */
function drawRuns(lane, [from, to], xOf) {
  const {pane, mote} = lane, {run, context: c} = pane, {scale} = page.time, {kind} = run;
  const y = pane.lineY(START, mote), tall = Math.max(5, pane.lane * 0.2), upper = y - tall / 2;
  if (scale < APART) {
    const broad = Math.max(1.5, Math.min(scale * 0.8, 14)), x = xOf(from);
    if (Math.round(x) !== lane.runEnd) box(c, 'run', x - broad / 2, upper, broad, tall);
    lane.runEnd = Math.round(x);
    return;
  }
  for (let i = from, end; i < to; i = end) {
    for (end = i + 1; end < to && !isCall(kind[end]);) end++;
    if (!isCall(kind[i])) continue;
    const half = Math.min(10, ((xOf(Math.min(i + 1, to - 1)) - xOf(i)) / 2 || 8) * 0.9);
    const left = xOf(i) - half, wide = xOf(end - 1) + half - left, text = run.process(run.p[i]);
    box(c, 'run', left, upper, wide, tall);
    Object.assign(c, {strokeStyle: colours.line, lineWidth: 1});
    c.strokeRect(left + 0.5, upper + 0.5, wide - 1, tall - 1);
    if (wide > text.length * 6.6 + 14 && tall > 10) lane.names.set(i, {text, x: left + 12, y, colour: 'run-ink'});
  }
}

function drawLine(lane, line, x) {
  const {pane, mote, isFull, r, marks, labels} = lane, {run} = pane, kind = run.kind[line], form = formOf(run, line);
  if (!isFull && form !== 'silent' && LOW.includes(kind)) {
    pane.drawn.low++;
    return;
  }
  const y = pane.lineY(form === 'silent' ? SEND : kind, mote);
  marks.push(x - r, y);
  const note = label => labels.push({y, behind: marks.length, ...label});
  if (kind === RECV && !isFull) putMark(lane, 'tick', x, y, Math.min(4, pane.lane * 0.2), line);
  else if (putMark(lane, form, x, y, kind === PRINT && !isFull ? Math.min(4, r) : r, line) && pane.lane >= 14) {
    if (kind === PRINT) note({text: String(run.w[line]), x: x + r + 2, colour: 'print'});
    if (kind === HALT) note({text: 'halts', x: x + r * 1.6 + 3, colour: 'trouble'});
    if (kind === BOOTS) note({text: 'boots', x: x + r * 1.6 + 3, colour: 'ink'});
  }
  if (isFull && form === 'silent') putMark(lane, 'timer', x, pane.lineY(TAKE, mote), r, line);
  if (lane.names.has(line)) note(lane.names.get(line));
}

function drawLane(pane, mote) {
  const {run} = pane, {at, haltAt} = run, [from, to] = pane.linesInView(mote);
  const lane = {pane, mote, isFull: pane.lane >= FULL_LANE, r: radiusOf(pane.lane), stamps: {}, marks: [], labels: [],
    names: new Map(), runEnd: -99};
  setFont(pane.context, 11);
  for (let i = from, end; i < to; i = end) {
    for (end = i + 1; end < to && at[end] === at[i];) end++;
    const turn = /** @type {[number, number]} */ ([i, end]), xOf = line => pane.lineX(line, mote, turn);
    if (lane.isFull) drawRuns(lane, turn, xOf);
    for (let line = i; line < end; line++) drawLine(lane, line, xOf(line));
  }
  drawLabels(lane);
  const x = Math.max(pane.gutter, pane.x(haltAt[mote] + 1)), y = pane.laneTop(mote) + pane.lane / 2;
  if (x < pane.width) drawPath(pane.context, [x, y, pane.x(run.end + 1), y], 'trouble', 1, 0.5, [2, 4]);
}

/** Draws a ring at a place of a mote's lane, if it is in view. */
export function ringAt(pane, mote, [x, y], colour = 'mark') {
  if (!pane.sees(mote) || x < pane.gutter || x > pane.width) return;
  ring(pane.context, x, y, Math.max(2, Math.min(8, pane.lane * 0.4)));
  stroke(pane.context, colour, 2.2);
}

/** Draws rings around the lines that a search has found, unless these are a great many. */
function drawFound(pane) {
  const {run, drawn, number} = pane, found = page.logged.rings[number] || [];
  if (found.length > MOST_RINGS) drawn.rings = found.length;
  for (const line of drawn.rings ? [] : found) ringAt(pane, run.moteOf(line), pane.placeOf(line, run.moteOf(line)));
}

/** Draws the lanes of a pane, with all that is around and over them. Lanes that are too low for forms, or have too
 * many lines, are drawn as colours. */
export function drawLanesOf(pane) {
  const {context: c, gutter, width, height, motesInView: motes} = pane;
  const lines = motes.map(mote => pane.linesInView(mote)).reduce((sum, [first, end]) => sum + end - first, 0);
  const isCrowded = pane.lane < SMALL_LANE || lines > (pane.lane >= FULL_LANE ? MOST_MARKS : MOST_MARKS * 4);
  Object.assign(pane, {hits: [], arrows: [],
    drawn: {lanes: motes.length, lines, thinned: 0, low: 0, rings: 0, unlabelled: 0, asColours: isCrowded, copies: 0}});
  c.save();
  c.beginPath();
  c.rect(gutter, AXIS, width - gutter, height - AXIS);
  c.clip();
  box(c, 'paper', gutter, AXIS, width, height);
  drawBands(pane, motes);
  drawGrid(pane);
  drawArrows(pane);
  if (isCrowded) drawOverview(pane, motes); else for (const mote of motes) drawLane(pane, mote);
  drawChosen(pane);
  drawFound(pane);
  for (const draw of page.overlays) draw(pane);
  c.restore();
  box(c, 'panel', 0, AXIS, gutter - 1, height);
  box(c, 'edge', gutter - 1, AXIS, 1, height);
  drawHeads(pane);
  // (over the heads: the name of a low lane is taller than the lane)
  drawNames(pane, motes);
  drawAxis(pane);
}
