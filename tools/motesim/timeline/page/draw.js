// Draws all panes and maps, and says in words what the panes show.
import {moveCursor} from './axis.js';
import {byId, count, digits} from './dom.js';
import {drawLanesOf} from './lanes.js';
import {page} from './stage.js';
import {momentsInWords} from './time.js';

/** Draws parts before the browser shows the next picture, however often it is called. */
function want(...parts) {
  if (!page.wanted.size) requestAnimationFrame(draw);
  parts.forEach(part => page.wanted.add(part));
}

export const redraw = () => want('lanes', 'maps');
export const redrawLanes = () => want('lanes');
export const redrawMaps = () => want('maps');

/** Draws everything at once. */
export function drawAll() {
  redraw();
  draw();
}

function draw() {
  const {panes, maps, wanted} = page, parts = [...wanted];
  wanted.clear();
  if (!panes.length) return;
  if (parts.includes('lanes')) {
    panes.forEach(drawLanesOf);
    const said = byId('drawn'), words = panes.map(pane => drawnInWords(pane, panes.length > 1));
    said.textContent = said.title = [momentsInWords(), ...words].join(' ');
  }
  panes.forEach(moveCursor);
  if (parts.includes('maps')) maps.forEach(map => map.draw());
  for (const pane of panes) page.followers.forEach(follow => follow(pane));
}

/** The items in view of a pane, and how many of them aren't drawn. */
function drawnInWords({drawn, arrows, run}, isOneOfTwo) {
  const motes = run.begins.length, where = isOneOfTwo ? `${run.name}: ` : '';
  const which = drawn.lanes < motes ? `${drawn.lanes} of ${count(motes, 'lane')}` : `All ${count(motes, 'lane')}`;
  const left = {'Lines found, without rings': drawn.rings, 'Marks not drawn': drawn.thinned + drawn.low,
    'Values not drawn': drawn.unlabelled, 'Copies without arrows': drawn.copies - arrows.length};
  return [`${where}${which}, ${count(drawn.lines, 'line')} of traces.`,
    ...drawn.asColours ? ['Colours instead of forms: T makes lanes taller.'] : [],
    ...Object.entries(left).flatMap(([name, rest]) => rest > 0 ? `${name}: ${digits(rest)}; zoom in.` : [])].join(' ');
}
