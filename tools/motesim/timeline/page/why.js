// Why a line is there: the chain of its causes, on the lanes, on the map, and as a list of lines.
import {pathOf} from './causes.js';
import {rowButton, showCard} from './details.js';
import {byId, count, element, list, makeButton, withPlaces} from './dom.js';
import {redraw} from './draw.js';
import {drawPath, head, ring, stroke} from './forms.js';
import {SMALL_LANE} from './layout.js';
import {page} from './stage.js';

/** Pixels above a chain in its frame. */
const EDGE = 6;

export async function askWhy(pane, line) {
  try {
    showChain(pane, await page.chainOf(pane.run, line));
  } catch (fault) {
    sayWhy(fault.message);
  }
}

/** Shows a title, texts and items, and announces a text. */
function show(title, texts, items, spoken) {
  const chain = byId('why-chain'), frame = chain.closest('#card');
  chain.hidden = false;
  chain.replaceChildren(element('h2', title), ...texts.map(text => element('p', '', withPlaces(text))),
    list('ol', items), makeButton('Close', closeWhy));
  if (frame?.hidden) showCard();
  if (frame) frame.scrollTop += chain.getBoundingClientRect().top - frame.getBoundingClientRect().top - EDGE;
  byId('spoken').textContent = spoken;
  redraw();
}

export function sayWhy(text, items = []) {
  closeWhy();
  show('Why', [text], items, text);
}

/** Shows a chain: on the lanes and the map, and as buttons. */
export function showChain(pane, hops, about = '') {
  const [first] = hops, path = pathOf(hops);
  page.why = {pane, run: pane.run, hops};
  show(`Why mote ${first.mote} writes: ${first.at} ${first.words}`, about ? [about, path] : [path],
    hops.map(hop => rowButton(pane, hop.row, `mote ${hop.mote}: ${hop.because}`)),
    `A chain of ${count(hops.length, 'line')}. ${path}`);
}

export function closeWhy() {
  page.why = {pane: null, run: null, hops: []};
  byId('why-chain').hidden = true;
  redraw();
}

/** Draws the chain on the lanes: a band from the start to the line, and a ring around each of its lines. */
export function drawChain(pane) {
  if (page.why.pane !== pane || page.why.run !== pane.run) return;
  const {context: c} = pane, low = pane.lane < SMALL_LANE, places = page.why.hops.map(({line, mote}) =>
    line < 0 ? [pane.x(0), pane.laneTop(mote) + pane.lane / 2] : pane.placeOf(line, mote));
  drawPath(c, places.flat(), 'halo', low ? 4 : 8, 0.55);
  drawPath(c, places.flat(), 'mark', 1.6, 0.95);
  places.forEach(([x, y], i) => {
    ring(c, x, y, low ? 2 : Math.max(4, Math.min(8, pane.lane * 0.22)));
    stroke(c, 'mark', i ? 1.4 : 3);
  });
}

/** Draws the chain on the map: an arrow for each hop of a packet. */
export function drawChainOnMap(map) {
  const {context: c} = map, {pane, run, hops} = page.why;
  if (pane !== map.pane || run !== map.run) return;
  hops.slice(1).forEach(({mote}, i) => {
    if (mote === hops[i].mote) return;
    const way = map.way(mote, hops[i].mote, map.radius);
    drawPath(c, way, 'halo', 7);
    drawPath(c, way, 'mark', 2.6);
    head(c, way, 9, 'mark', true);
  });
  for (const {mote} of [hops[0], hops[hops.length - 1]]) {
    ring(c, map.x(mote), map.y(mote), map.radius + 4);
    stroke(c, 'mark', 2.2);
  }
}
