// The stretch of time in view, which all panes share.
import {page} from './stage.js';

const {time} = page, MOST_SCALE = 600;

/** The scale at which the whole run is in view. */
export const leastScale = () => time.width / (time.end + 1) * 0.98;

export const isWhole = () => time.scale <= leastScale() * 1.001;

/** Takes another width of the view, or another end of the run; a whole run stays in view. */
export function fitTime({width = time.width, end = time.end}) {
  const shown = time.width / time.scale, wasWhole = isWhole();
  Object.assign(time, {width, end});
  time.scale = wasWhole ? leastScale() : width / shown;
  keepTime();
}

/** Keeps the view within the run. */
export function keepTime() {
  time.scale = Math.min(MOST_SCALE, Math.max(leastScale(), time.scale));
  const shown = time.width / time.scale, slack = Math.max(0, shown - time.end - 1);
  time.begin = Math.min(Math.max(time.begin, -slack / 2), Math.max(-slack / 2, time.end + 1 - shown));
}

/** Zooms so that the moment at x stays there. */
export function zoomTime(factor, x = time.width / 2) {
  const moment = time.begin + x / time.scale;
  time.scale *= factor;
  keepTime();
  time.begin = moment - x / time.scale;
  keepTime();
}

function centre(moment) {
  time.begin = moment - time.width / time.scale / 2;
  keepTime();
}

/** Zooms to the moments from the first to the last. */
export function showTime(first, last) {
  time.scale = time.width / Math.max(1, last - first + 1);
  keepTime();
  centre((first + last + 1) / 2);
}

/** Moves the view so that a moment is in it. */
export function revealMoment(moment) {
  const x = (moment + 0.5 - time.begin) * time.scale;
  if (x < 20 || x > time.width - 20) centre(moment + 0.5);
}

export function momentsInWords() {
  const last = Math.min(time.end, Math.ceil(time.begin + time.width / time.scale) - 1);
  return `Moments ${Math.max(0, Math.floor(time.begin))} to ${last} of ${time.end}.`;
}

/** The least step of 1, 2 or 5 times a power of ten that isn't below the wanted one. */
export function niceStep(wanted) {
  const power = 10 ** Math.floor(Math.log10(Math.max(1, wanted)));
  return power * [1, 2, 5, 10].find(times => power * times >= wanted);
}
