// The page of runs: shows them, and reacts to mouse, keys and buttons.
import {chooseAgain, chooseLine, chooseMote, chosenInWords, selectNothing, showCard, walk} from './details.js';
import {byId, count, element} from './dom.js';
import {drawAll, redraw, redrawLanes} from './draw.js';
import {showTab} from './drawer.js';
import {readColours} from './forms.js';
import {Pane} from './layout.js';
import {walkLog} from './log.js';
import {MapView} from './map.js';
import {itemAt} from './near.js';
import {chooseSpeed, followNow, setNow, startPlaying, step, stopPlaying} from './play.js';
import {onPointer, zoomOf} from './pointer.js';
import {page} from './stage.js';
import {fitTime, keepTime, leastScale, showTime, zoomTime} from './time.js';
import {askWhy, closeWhy, drawChain, drawChainOnMap} from './why.js';

const {panes, maps, time, play, chosen} = page;
const SHARE = 0.2, LEAST_STEP = 40;

/** Fits panes and maps to the window. */
export function resize() {
  for (const part of [...panes, ...maps]) part.resize();
  if (panes.length) fitTime({width: panes[0].width - panes[0].gutter});
}

export function whole() {
  time.scale = leastScale();
  keepTime();
  for (const pane of panes) pane.fit();
}

/** The pane that keys are for: the one with the keyboard, or with the selection. */
const paneNow = () => panes.find(it => it.canvas === document.activeElement) || chosen.pane || panes[0];

const pan = by => { time.begin += time.width / time.scale * SHARE * by; };
const scroll = by => panes.forEach(pane => { pane.top += Math.max(LEAST_STEP, pane.height * SHARE) * by; });

/** Goes to another line, or another lane, with the card if the keys are for the lanes, and not for the map. */
function walkBy(lines, lanes = 0) {
  const pane = paneNow();
  walk(pane, lines, lanes);
  if (document.activeElement === pane.canvas) showCard();
}

/** What keys do; a button names the key that does the same. */
const KEYS = {
  '+': () => zoomTime(1.5),
  '-': () => zoomTime(1 / 1.5),
  0: whole,
  ArrowLeft: () => pan(-1),
  ArrowRight: () => pan(1),
  ArrowUp: () => scroll(-1),
  ArrowDown: () => scroll(1),
  t: () => panes.forEach(pane => pane.zoomLanes(1.4)),
  l: () => panes.forEach(pane => pane.zoomLanes(1 / 1.4)),
  ' ': () => play.runs ? stopPlaying() : startPlaying(),
  '.': () => step(1),
  ',': () => step(-1),
  '[': () => walkBy(-1),
  ']': () => walkBy(1),
  '{': () => walkBy(0, -1),
  '}': () => walkBy(0, 1),
  w: () => { if (chosen.line >= 0) askWhy(chosen.pane, chosen.line); },
  n: () => walkLog(1),
  p: () => walkLog(-1),
  '/': () => {
    showTab('log');
    byId('log-asked').focus();
  },
  Escape: () => {
    selectNothing();
    closeWhy();
  },
};
Object.assign(KEYS, {'=': KEYS['+'], _: KEYS['-']});

/** Keeps the view within the run, and draws it. */
function show() {
  keepTime();
  for (const pane of panes) pane.keep();
  redrawLanes();
}

function act(key) {
  KEYS[key]();
  show();
}

/** Reacts to keys, except in fields and on buttons, which need them. */
function onKey(event) {
  if (event.ctrlKey || event.metaKey || event.altKey || document.querySelector('dialog[open]')) return;
  const key = event.key.length === 1 ? event.key.toLowerCase() : event.key, {target} = event;
  const isTyping = target.matches('input, textarea, select, summary');
  const isMoving = (key === ' ' || key.startsWith('Arrow')) && target.closest('button, #details, #drawer');
  if (isTyping && key === 'Escape') return target.blur();
  if (isTyping || isMoving || !KEYS[key]) return;
  act(key);
  event.preventDefault();
}

function listenTo(pane) {
  onPointer(pane.canvas, {
    words: (x, y) => itemAt(pane, x, y)?.words ?? '',
    click(x, y, {clientX, clientY}) {
      const item = itemAt(pane, x, y);
      item?.choose();
      if (item) showCard(clientX, clientY);
      else if (x >= pane.gutter) setNow(Math.floor(pane.moment(x)));
    },
    drag(dx, dy) {
      time.begin -= dx / time.scale;
      pane.top -= dy;
      show();
    },
    zoom(factor, x) {
      zoomTime(factor, x - pane.gutter);
      show();
    },
    // (it pans with Shift, changes the height of lanes with Ctrl, and goes up and down over the names)
    wheel({deltaMode, deltaX, deltaY, ctrlKey, shiftKey, offsetX, offsetY}) {
      const by = deltaMode === 1 ? 30 : 1, dx = deltaX * by, dy = deltaY * by;
      if (ctrlKey) pane.zoomLanes(zoomOf(dy), offsetY);
      else if (shiftKey || Math.abs(dx) > Math.abs(dy)) time.begin += (dx || dy) / time.scale;
      else if (offsetX < pane.gutter) pane.top += dy;
      else zoomTime(zoomOf(dy), offsetX - pane.gutter);
      show();
    },
  });
}

function refit() {
  resize();
  drawAll();
}

/** Reacts to mouse, keys and buttons; and lets tests and a reader's console do what they do. */
function listen() {
  page.overlays.push(drawChain);
  page.mapOverlays.push(drawChainOnMap);
  Object.assign(page, {redraw, drawAll, act, setNow, askWhy});
  document.addEventListener('keydown', onKey);
  for (const button of /** @type {NodeListOf<HTMLElement>} */ (document.querySelectorAll('[data-key]')))
    button.addEventListener('click', () => act(button.dataset.key));
  byId('now').addEventListener('change', ({target}) => {
    stopPlaying();
    setNow(Number(target.value) || 0);
    followNow();
  });
  const sizes = new ResizeObserver(refit);
  for (const box of [document.querySelector('main'), byId('panes'), byId('maps')]) sizes.observe(box);
  for (const medium of ['(prefers-color-scheme: dark)', 'print'])
    window.matchMedia(medium).addEventListener('change', recolour);
}

/** Draws everything again in other colours, at once because the page may be printed. */
function recolour() {
  readColours();
  for (const map of maps) map.still = null;
  drawAll();
}

function addPane(run, number, several) {
  const canvas = element('canvas', '', [], {tabIndex: 0, role: 'application', 'aria-describedby': 'drawn',
    'aria-label': `Timeline of ${run.name}: ${count(run.begins.length, 'mote')}, moments 0 to ${run.end}. ` +
      '[ and ] choose a line, { and } another lane, plus and minus zoom, arrows pan.'});
  const cursor = element('div', '', [], {className: 'cursor', 'aria-hidden': 'true'});
  const layers = element('div', '', [canvas, cursor], {className: 'layers'});
  const pane = Object.assign(new Pane(run), {number, canvas, context: canvas.getContext('2d', {alpha: false}), cursor});
  byId('panes').append(element('div', '', [...several ? [element('h2', run.name)] : [], layers], {className: 'pane'}));
  panes.push(pane);
  maps.push(new MapView(pane, byId('maps').appendChild(element('section', '', [], {className: 'map'})),
    several ? `Map of ${run.name}` : 'Map'));
  listenTo(pane);
}

/** Takes the last moment of all runs as the end of the view. */
function fitEnd() {
  fitTime({end: Math.max(...panes.map(({run}) => run.end))});
  byId('now').max = time.end;
}

/** Shows the first runs of a page, one above another. */
export function showRuns(runs) {
  runs.forEach((run, number) => addPane(run, number, runs.length > 1));
  fitEnd();
  chooseSpeed();
  listen();
  resize();
}

/** Shows another run in a pane. Zoom, place and selection stay as far as they can. */
export function showInstead(pane, run) {
  const kept = chosenInWords();
  closeWhy();
  pane.take(run);
  maps[pane.number].take(run);
  fitEnd();
  resize();
  const now = Math.min(play.now, time.end);
  if (kept) chooseAgain(pane, kept);
  setNow(now);
}

/** Follows the page's address after #: from, to, mote, line (a number). */
export function openAsAddressed() {
  const wish = new URLSearchParams(location.hash.slice(1)), [pane] = panes;
  const [from, to, mote, row] = ['from', 'to', 'mote', 'line'].map(name => Number(wish.get(name)));
  if (wish.has('from')) showTime(from, wish.has('to') ? to : from + 60);
  if (wish.has('mote') && mote < pane.order.length) {
    chooseMote(pane, mote);
    pane.reveal(mote);
  }
  const line = pane.run.atRow(row)?.line ?? -1, after = pane.run.at[line] - time.begin;
  if (line >= 0) chooseLine(pane, line, !wish.has('from') || after < 0 || after > time.width / time.scale);
}
