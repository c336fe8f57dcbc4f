// Opens the page of tools/timeline on the runs that it holds.
import {chainOf} from './causes.js';
import {Run, columnsIn} from './data.js';
import {chooseLine, chooseMote, chooseRow, rowButton} from './details.js';
import {byId, count, element, list} from './dom.js';
import {drawAll} from './draw.js';
import {beginDrawer} from './drawer.js';
import {readColours} from './forms.js';
import {breathe, indexRun} from './index.js';
import {FULL_LANE} from './layout.js';
import {openAsAddressed, resize, showRuns, whole} from './main.js';
import {unpacked} from './packing.js';
import {setNow} from './play.js';
import {page} from './stage.js';
import {showTime} from './time.js';

/** Shows the moments around one, with the lanes of a mote in view. */
function showAround(moment, mote) {
  showTime(Math.max(0, moment - 15), Math.min(page.time.end, moment + 45));
  setNow(moment);
  for (const pane of mote === null ? [] : page.panes.filter(it => mote < it.order.length)) {
    if (pane.lane < FULL_LANE) pane.zoomLanes(FULL_LANE * 1.2 / pane.lane);
    pane.reveal(mote);
  }
}

/** Shows the purpose of the page: its note, or a moment, or the whole run. */
function openAt({start, mote, note}) {
  whole();
  if (note) return openAtNote(note);
  if (start === null) return;
  showAround(start, mote);
  if (mote === null) return;
  // (the first line of the mote at this moment, in the first run that has one)
  const isThere = ({run}) => mote < run.begins.length && run.lineAt(mote, start) < run.lineAt(mote, start + 1);
  const pane = page.panes.find(isThere);
  if (pane) chooseLine(pane, pane.run.lineAt(mote, start));
}

/** The reason of a note, and the lines about it. */
function partsOf({why, lines}, pane) {
  return [element('p', why), list('ul', lines.map(({text, row}) => rowButton(pane, row, '', text)))];
}

/** Shows a note, and its first line that the report has; or the last line of the mote before a missing one. */
function openAtNote(note) {
  const box = byId('note'), [pane] = page.panes, {run} = pane, first = note.lines.find(it => it.row);
  box.hidden = false;
  document.body.classList.add('noted');
  resize();
  box.append(element('h2', `Broken: ${note.title}`), ...partsOf(note, pane), ...note.others.map(it =>
    element('details', '', [element('summary', `Also broken: ${it.title}`), ...partsOf(it, pane)])));
  if (first) chooseRow(pane, first.row);
  else if (note.mote !== null) {
    const line = run.lineAt(note.mote, note.at + 1) - 1;
    if (line >= run.traceStart[note.mote]) chooseLine(pane, line); else chooseMote(pane, note.mote);
  }
  const {line, mote} = page.chosen;
  if (page.chosen.pane) showAround(first || line >= 0 ? page.play.now : note.at, mote);
}

async function open() {
  page.chainOf = chainOf;
  beginDrawer();
  const data = JSON.parse(byId('data').textContent), runs = /** @type {any[]} */ ([]);
  readColours();
  for (const [number, table] of data.runs.entries()) {
    const box = byId(`run${number}`), {buffer} = await unpacked(box.textContent);
    const run = new Run(table, columnsIn(table, /** @type {ArrayBuffer} */ (buffer)));
    box.textContent = '';
    await breathe();
    await indexRun(run);
    runs.push(run);
  }
  showRuns(runs);
  byId('about').textContent = byId('about').title = runs.map(run => `${run.name}: ` +
    `${count(run.begins.length, 'mote')}, ${count(run.end + 1, 'moment')}, ${count(run.packets, 'packet')}, ` +
    `a report of ${count(run.rows, 'line')}`).join('; ');
  openAt(data);
  openAsAddressed();
  page.ready = true;
  drawAll();
}

window.motesim = page;
open().catch(fault => {
  Object.assign(byId('about'), {className: 'fault', textContent: `This page can't be shown here: ${fault.message}`});
  console.error(fault);
});
