// The moment that the maps show, and playing from moment to moment.
import {lowerBound} from './data.js';
import {byId} from './dom.js';
import {redrawLanes, redrawMaps} from './draw.js';
import {page} from './stage.js';
import {keepTime} from './time.js';

// The seconds that playing may show nothing, that it plays a run, and that it may leave out on a busy machine.
const IDLE = 0.5, WHOLE = 25, MOST_LATE = 0.2;

/** Sets the moment that the maps show; `before` is the last one that they showed. */
export function setNow(moment, before = null) {
  const {play} = page;
  play.now = Math.max(0, Math.min(page.time.end, moment));
  play.before = before ?? play.now - 1;
  byId('now').value = Math.floor(play.now);
  redrawMaps();
}

const isBusy = moment => page.panes.some(pane => pane.run.busy[moment]);

/** The next moment, or the one before, at which anything happens in a run. */
function nextBusy(now, by) {
  let moment = Math.floor(now) + by;
  while (moment >= 0 && moment <= page.time.end && !isBusy(moment)) moment += by;
  return Math.max(0, Math.min(page.time.end, moment));
}

/** The moment at which playing goes on: just before the next one at which anything happens, if that is far. */
export function pastIdle(now, far) {
  const isFlying = ({run}) => lowerBound(run.packetAt, now - run.longest) < lowerBound(run.packetAt, now + 1e-9);
  if (isBusy(Math.floor(now)) || page.panes.some(isFlying)) return now;
  const next = nextBusy(now, 1);
  return next - now > far ? next - 1 : now;
}

export function step(by) {
  stopPlaying();
  setNow(nextBusy(page.play.now, by));
  followNow();
}

/** Keeps the moment that is played in view. */
export function followNow() {
  const {play, time} = page, x = (play.now - time.begin) * time.scale;
  if (x >= 0 && x <= time.width * 0.92) return;
  time.begin = play.now - time.width * 0.1 / time.scale;
  keepTime();
  redrawLanes();
}

export function stopPlaying() {
  page.play.runs = false;
  byId('play').textContent = 'Play';
}

/** Plays from the moment that is shown on. */
export function startPlaying() {
  if (page.play.now >= page.time.end) setNow(0);
  Object.assign(page.play, {runs: true, last: performance.now()});
  byId('play').textContent = 'Stop';
  requestAnimationFrame(playOn);
}

function playOn(now) {
  const {play} = page, speed = Number(byId('speed').value);
  if (!play.runs) return;
  const past = Math.min(MOST_LATE, Math.max(0, now - play.last) / 1000);
  play.last = now;
  setNow(pastIdle(play.now + past * speed, Math.max(2, speed * IDLE)), play.now);
  followNow();
  if (play.now >= page.time.end) stopPlaying(); else requestAnimationFrame(playOn);
}

/** Chooses the speed that plays the whole run in about 25 seconds. */
export function chooseSpeed() {
  const {options} = byId('speed'), fitting = [...options].filter(it =>
    Number(it.value) <= (page.time.end + 1) / WHOLE);
  byId('speed').value = (fitting.pop() || options[0]).value;
}
