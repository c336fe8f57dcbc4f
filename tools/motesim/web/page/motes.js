// The map as a way to change the scenario, by mouse and by keyboard: motes are moved, added and removed, and links
// lose packets. Each of these changes the text.
import {chooseMote} from '../../timeline/page/details.js';
import {byId, count, element, makeButton, onClick} from '../../timeline/page/dom.js';
import {redraw} from '../../timeline/page/draw.js';
import {drawPath} from '../../timeline/page/forms.js';
import {delayOf, findHearers} from '../../timeline/page/index.js';
import {linkInWords} from '../../timeline/page/near.js';
import {page} from '../../timeline/page/stage.js';

const {ground, maps, chosen} = page;
const ARROWS = {ArrowLeft: [-1, 0], ArrowRight: [1, 0], ArrowUp: [0, -1], ArrowDown: [0, 1]};
const MAP_KEYS = 'Map of the motes: { and } choose a mote, arrows move it by a tenth of the range, with Shift by 1. ' +
  'Enter shows its next link, whose losses follow in the order of Tab. Delete removes the mote.';

export const sayOnMap = words => { byId('map-said').textContent = words; };

/** Moves the motes back to the places that they have in the run. */
export function restoreMotes() {
  const [map] = maps, {held} = ground;
  if (!map) return;
  if (held) map.run.places[held.mote] = held.place;
  Object.assign(ground, {held: null, chooses: false});
  findHearers(map.run);
  map.take(map.run);
  map.resize();
  redraw();
}

/** What a map that can be changed does with its motes. */
const groundEdits = {
  hold: (x, y) => ground.adding ? -1 : maps[0].moteNear(x, y),

  /** Moves the mote with the pointer, and shows who hears it there. */
  drag(mote, x, y) {
    const [map] = maps, {run} = map;
    ground.held ||= {mote, place: run.places[mote]};
    [map.xs[mote], map.ys[mote]] = map.shownAt(x, y);
    run.places[mote] = map.placeAt(x, y);
    findHearers(run);
    sayOnMap(`Mote ${mote} to ${run.places[mote].join(', ')}`);
    map.redraw();
  },

  drop(mote, x, y) {
    this.drag(mote, x, y);
    const [toX, toY] = maps[0].run.places[mote];
    page.edit({what: 'move', mote, x: toX, y: toY});
  },

  /** Reacts to a click: adds a mote if one is wanted, or shows the link between two motes; true if it does. */
  click(x, y, mote) {
    const [map] = maps, {adding} = ground;
    if (adding) addMote(map.placeAt(x, y), map.moteNear(x, y, Infinity));
    else showWay(mote < 0 ? map.linkNear(x, y) : null);
    return adding || mote < 0;
  },

  /** Reacts to a key on the map: adds the wanted mote beside the selected one, or moves this one, removes it, or shows
      its next link. True if it does any of these. */
  key({key, shiftKey}) {
    const {run} = maps[0], {mote} = chosen, by = ARROWS[key];
    const step = shiftKey ? 1 : Math.max(1, Math.round(run.range / 10));
    if (key === 'Escape' && ground.adding) {
      setAdding(false);
      sayOnMap('No mote is added.');
    } else if (key === 'Enter' && ground.adding) {
      const near = Math.max(0, mote), [x, y] = run.places[near];
      ground.chooses = true;
      addMote([x + step, y], near);
    } else if (mote < 0) return false;
    else if (key === 'Enter') showNextWay(run, mote);
    else if (key === 'Delete') page.edit({what: 'remove', mote});
    else if (by) page.edit({what: 'shift', mote, by: by.map(it => it * step)}, 'moved');
    else return false;
    return true;
  },
};

/** Adds a mote at a place, with the program of another one. */
function addMote([x, y], near) {
  const {run} = maps[0];
  setAdding(false);
  page.edit({what: 'add', x, y, program: run.programs[run.begins[near]]});
}

/** Waits for the place of a new mote, or stops waiting. */
function setAdding(isAdding) {
  const [{canvas}] = maps;
  ground.adding = isAdding;
  byId('add').setAttribute('aria-pressed', String(isAdding));
  canvas.style.cursor = isAdding ? 'crosshair' : '';
  if (!isAdding) return;
  sayOnMap('Click the place of the new mote on the map, or press Enter to have it beside the selected one.');
  canvas.focus();
}

/** Shows the link of a mote after the one that is shown. */
function showNextWay(run, mote) {
  const hearers = run.hearers[mote], [from, to] = ground.way || [];
  const other = hearers[((from === mote ? hearers.indexOf(to) : -1) + 1) % hearers.length];
  showWay(hearers.length ? [mote, other] : null);
  sayOnMap(hearers.length ? linkInWords(run, mote, other) : `Mote ${mote} has no link.`);
}

/** Delay and losses between two motes, in both directions. */
function showWay(way) {
  const box = byId('way'), {run} = maps[0];
  ground.way = way;
  box.hidden = !way;
  redraw();
  if (!way) return;
  const [s, r] = way, head = element('h3', '', [element('span', `Mote ${s} and mote ${r}`),
    makeButton('×', () => showWay(null), {title: 'Close'})]);
  box.replaceChildren(head, wayOf(run, s, r), wayOf(run, r, s));
  box.scrollIntoView({block: 'nearest'});
}

function wayOf(run, s, r) {
  const input = element('input', '', [], {type: 'number', min: 0, max: 1000000, placeholder: 'none',
    value: run.lossOf.get(s * 65536 + r) || '', 'data-way': `${s} ${r}`,
    'aria-label': `Losses from mote ${s} to mote ${r}: one packet in this number; empty for no loss`,
    onchange: () => page.edit({what: 'lose', from: s, to: r, every: Math.floor(Number(input.value)) || 0})});
  const fault = `link ${s} to ${r} is broken`, isThere = run.faults.includes(fault);
  return element('p', `${s} → ${r}: ${count(delayOf(run, s, r), 'moment')}, `,
    [element('label', 'loses 1 in ', [input]), ' ',
    makeButton('broken', () => page.toggleFault(fault), {'aria-pressed': String(isThere), title: fault})]);
}

function drawWay(map) {
  const {way} = ground;
  if (way && Math.max(...way) < map.run.begins.length) drawPath(map.context, map.way(way[0], way[1]), 'mark', 5, 0.55);
}

/** Makes the map of a new run editable, and shows the data of this run for the selected link. */
export function renewMotes() {
  const [map] = maps, {run} = map, {way, chooses} = ground;
  const typing = byId('way').contains(document.activeElement) &&
    /** @type {HTMLElement} */ (document.activeElement).dataset.way;
  map.edits = groundEdits;
  map.canvas.tabIndex = 0;
  map.canvas.setAttribute('role', 'application');
  map.canvas.setAttribute('aria-label', MAP_KEYS);
  Object.assign(ground, {held: null, chooses: false});
  if (chooses) chooseMote(map.pane, run.begins.length - 1, true);
  showWay(way && Math.max(...way) < run.begins.length && run.hearers[way[0]].includes(way[1]) ? way : null);
  if (typing) byId('way').querySelector(`[data-way="${typing}"]`)?.focus();
}

function nameRemove() {
  const button = byId('remove'), {mote} = chosen, name = mote < 0 ? 'Remove the mote' : `Remove mote ${mote}`;
  button.disabled = mote < 0 || page.panes[0].run.begins.length < 2;
  if (button.textContent !== name) button.textContent = name;
}

export function beginMotes() {
  page.followers.push(nameRemove);
  page.mapOverlays.push(drawWay);
  onClick({add: () => maps.length && setAdding(!ground.adding), remove: () => page.edit({what: 'remove',
    mote: chosen.mote})});
}
