// What all pages have besides the lanes: panels below them, of which one may be open; and the borders between the parts
// of the page.
import {byId, onClick, stored} from './dom.js';
import {redraw} from './draw.js';
import {beginLog} from './log.js';
import {page} from './stage.js';
import {fillSums} from './sums.js';
import {closeWhy} from './why.js';

/** The share of each part at first, and at a point of the window. */
const SHARES = {left: 0.36, map: 0.42, drawer: 0.27}, KEY = 'motesim sizes', STEP = 0.02;
const shareAt = {left: x => x / innerWidth, drawer: (x, y) => 1 - y / innerHeight, map(x, y) {
  const {top, height} = byId('see').getBoundingClientRect();
  return (y - top) / height;
}};

/** Shows the totals of the run, if their panel is open. */
export function showSums() {
  if (page.panes.length && !byId('sums').hidden) fillSums(byId('sums'), page.panes[0].run);
}

/** Makes the tabs work by mouse and by arrow keys: at most one is open. */
function beginTabs() {
  const tabs = [...byId('tabs').children].filter(it => it.offsetParent);
  const choose = tab => {
    const open = tab.getAttribute('aria-selected') === 'true' ? null : tab;
    for (const it of tabs) {
      it.setAttribute('aria-selected', String(it === open));
      it.tabIndex = it === tab ? 0 : -1;
      byId(it.getAttribute('aria-controls')).hidden = it !== open;
    }
    showSums();
    redraw();
    // (in a narrow window the panel is below all else)
    if (open) byId('drawer').scrollIntoView({block: 'nearest'});
  };
  for (const tab of tabs) tab.addEventListener('click', () => choose(tab));
  onArrow(byId('tabs'), {ArrowLeft: -1, ArrowRight: 1}, by =>
    tabs[(tabs.indexOf(document.activeElement) + by + tabs.length) % tabs.length].focus());
}

/** Lets arrow keys do something in a part of the page, and nothing else. @param {Record<string, number>} steps */
function onArrow(part, steps, act) {
  part.addEventListener('keydown', event => {
    if (!steps[event.key]) return;
    event.preventDefault();
    event.stopPropagation();
    act(steps[event.key]);
  });
}

export function showTab(name) { if (byId(name).hidden) byId(`tab-${name}`).click(); }

/** Lets the borders between the parts of the page be dragged, or moved by arrow keys. */
function beginSplitters() {
  const kept = {...SHARES, ...stored(it => JSON.parse(it.getItem(KEY) || '{}'))};
  for (const border of /** @type {NodeListOf<HTMLElement>} */ (document.querySelectorAll('[role="separator"]'))) {
    const name = border.dataset.of || '', down = name === 'drawer' ? -STEP : STEP;
    const set = share => {
      kept[name] = Math.min(0.85, Math.max(0.1, share));
      document.documentElement.style.setProperty(`--${name}`, kept[name]);
      border.setAttribute('aria-valuenow', String(Math.round(kept[name] * 100)));
      stored(it => it.setItem(KEY, JSON.stringify(kept)));
    };
    set(kept[name]);
    border.addEventListener('pointerdown', ({pointerId}) => border.setPointerCapture(pointerId));
    border.addEventListener('pointermove', ({buttons, clientX, clientY}) => {
      if (buttons) set(shareAt[name](clientX, clientY));
    });
    onArrow(border, {ArrowLeft: -STEP, ArrowRight: STEP, ArrowUp: -down, ArrowDown: down}, by => set(kept[name] + by));
  }
}

export function beginDrawer() {
  const card = byId('card');
  onClick({'card-close'() {
    card.hidden = true;
    closeWhy();
  }});
  // (in a narrow window it covers the text)
  byId('write').addEventListener('pointerdown', () => { card.hidden ||= matchMedia('(max-width: 900px)').matches; });
  beginLog();
  beginSplitters();
  beginTabs();
}
