// The places of a run's motes on the map.
import {lowerBound} from './data.js';
import {awayFrom, nearest} from './layout.js';

/** The margin of the map. */
const ROOM = 26;

/** Places along one axis with wide empty stretches shortened; whether any was; and the function from shown places back
    to real ones. */
export function shortened(values, most) {
  const sorted = [...new Set(values)].sort((a, b) => a - b), shown = [0], last = sorted.length - 1;
  for (let i = 1; i <= last; i++) shown.push(shown[i - 1] + Math.min(sorted[i] - sorted[i - 1], most));
  const back = where => {
    const i = lowerBound(shown, where);
    if (i === 0 || i > last) return sorted[Math.min(i, last)] + where - shown[Math.min(i, last)];
    return sorted[i] - (shown[i] - where) * (sorted[i] - sorted[i - 1]) / (shown[i] - shown[i - 1]);
  };
  return [values.map(value => shown[lowerBound(sorted, value)]), shown[last] < sorted[last] - sorted[0], back];
}

/** The map's geometry: a place for each mote in a view of `width` by `height`, zoomed and moved by the reader. */
export class MapLayout {
  zoom = 1;
  dx = 0;
  dy = 0;

  constructor(run) { this.take(run); }

  take(run) {
    const motes = [...run.begins.keys()], turn = m => m / motes.length * 2 * Math.PI;
    const places = run.places || motes.map(m => [Math.sin(turn(m)), -Math.cos(turn(m))]);
    const most = run.places && run.range ? run.range * 1.6 : Infinity;
    const [xs, shortX, backX] = shortened(places.map(place => place[0]), most);
    const [ys, shortY, backY] = shortened(places.map(place => place[1]), most);
    this.run = run;
    this.xs = xs;
    this.ys = ys;
    this.backTo = [backX, backY];
    this.spanX = Math.max(...xs);
    this.spanY = Math.max(...ys);
    this.isShort = shortX || shortY;
    this.linkCount = run.hearers.reduce((sum, list) => sum + list.length, 0) / 2;
  }

  fitTo(width, height) {
    this.width = width;
    this.height = height;
    const fit = Math.min((width - 2 * ROOM) / (this.spanX || 1), (height - 2 * ROOM) / (this.spanY || 1));
    this.fit = this.spanX || this.spanY ? fit : 1;
  }

  /** Zooms by a factor so that the point at x, y stays there. */
  zoomAt(factor, x, y) {
    const zoom = Math.max(1, Math.min(40, this.zoom * factor)), by = zoom / this.zoom;
    const fromX = x - this.width / 2, fromY = y - this.height / 2;
    this.dx = zoom === 1 ? 0 : fromX + (this.dx - fromX) * by;
    this.dy = zoom === 1 ? 0 : fromY + (this.dy - fromY) * by;
    this.zoom = zoom;
  }

  x(m) { return this.width / 2 + this.dx + (this.xs[m] - this.spanX / 2) * this.fit * this.zoom; }
  y(m) { return this.height / 2 + this.dy + (this.ys[m] - this.spanY / 2) * this.fit * this.zoom; }

  /** The place of a point of the view on the shown axes. */
  shownAt(x, y) {
    const by = this.fit * this.zoom;
    return [(x - this.width / 2 - this.dx) / by + this.spanX / 2,
      (y - this.height / 2 - this.dy) / by + this.spanY / 2];
  }

  /** The coordinates of a mote at a point of the view. */
  placeAt(x, y) {
    return this.shownAt(x, y).map((shown, axis) => Math.round(this.backTo[axis](shown)));
  }

  /** The ends of the way between two motes, each a cut nearer to the other. */
  way(s, r, cut = 0) {
    const x0 = this.x(s), y0 = this.y(s), x1 = this.x(r), y1 = this.y(r);
    const by = cut / (Math.hypot(x1 - x0, y1 - y0) || 1), dx = (x1 - x0) * by, dy = (y1 - y0) * by;
    return [x0 + dx, y0 + dy, x1 - dx, y1 - dy];
  }

  /** The links between motes, each once. */
  * links() {
    const {hearers, places} = this.run;
    for (const [s, list] of hearers.entries()) for (const r of list) if (r > s || !places) yield [s, r];
  }

  /** The radius of a mote: by the room that each has. */
  get radius() {
    const room = (this.spanX * this.fit + 30) * (this.spanY * this.fit + 30);
    return Math.max(1.5, Math.min(14, Math.sqrt(room / this.run.begins.length) * this.zoom * 0.22));
  }

  /** The mote nearest to a point, or -1 if none is within reach. */
  moteNear(x, y, reach = Math.max(12, this.radius + 4)) {
    return nearest(this.run.begins.keys(), m => Math.hypot(x - this.x(m), y - this.y(m)), reach) ?? -1;
  }

  /** The two motes of the link that passes near a point, or null. */
  linkNear(x, y) { return nearest(this.links(), ([s, r]) => awayFrom(x, y, this.way(s, r)), 7); }
}
