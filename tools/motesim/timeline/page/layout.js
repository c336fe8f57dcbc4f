// A pane: the lanes of a run, with the places of its motes, moments and lines.
import {PRINT, RECV, SEND} from './data.js';
import {fitCanvas} from './forms.js';
import {page} from './stage.js';

/** The height of the axis, and of the head of an island. */
export const AXIS = 24;
export const HEAD = 46;
/** Heights of lanes: below the first, lanes are drawn as colours; from the second on, in rows of forms. */
export const SMALL_LANE = 9;
export const FULL_LANE = 32;
const TALL_LANE = 150;
/** From this scale on, the lines of a moment are drawn apart. */
export const APART = 14;
/** The rows of lines in a lane by their kinds; and those in low lanes. */
const ROWS = [0.5, 0.5, 0.72, 0.72, 0.88, 0.88, 0.5, 0.5, 0.15, 0.3, 0.3, 0.3, 0.3, 0.5, 0.5];
const LOW_ROWS = {[RECV]: 0.8, [PRINT]: 0.3};

/** How far a point is from a line between two points. */
export function awayFrom(x, y, ends) {
  const [x0, y0, x1, y1] = ends, dx = x1 - x0, dy = y1 - y0;
  const along = Math.max(0, Math.min(1, ((x - x0) * dx + (y - y0) * dy) / (dx * dx + dy * dy || 1)));
  return Math.hypot(x - x0 - along * dx, y - y0 - along * dy);
}

/** The item of a list that is nearest, within a reach; `farOf` has the distance of an item. */
export function nearest(items, farOf, reach) {
  let least = reach, found = null;
  for (const item of items) {
    const far = farOf(item);
    if (far < least) [least, found] = [far, item];
  }
  return found;
}

export class Pane {
  /** Its canvas, with the context and the dots of a pixel; the run that it shows. */
  canvas = /** @type {any} */ (null);
  context = /** @type {any} */ (null);
  run = /** @type {any} */ (null);
  dots = 1;
  top = 0;
  lane = 20;
  gutter = 70;
  width = 200;
  height = 200;

  constructor(run) { this.take(run); }

  /** Makes lanes for the motes of a run, in the order of islands; if all were in view, all are again. */
  take(run) {
    const wasFit = this.run && this.isFit;
    this.run = run;
    this.order = run.groups.flatMap(group => group.motes);
    this.place = new Int32Array(run.begins.length);
    this.groupOf = new Int32Array(run.begins.length);
    this.order.forEach((mote, place) => { this.place[mote] = place; });
    run.groups.forEach((group, g) => group.motes.forEach(mote => { this.groupOf[mote] = g; }));
    if (wasFit) this.fit();
  }

  /** Makes the canvas as large as its place on the page. */
  resize() {
    const {clientWidth, clientHeight} = this.canvas.parentElement, {isFit} = this;
    Object.assign(this, {width: Math.max(200, clientWidth), height: clientHeight, gutter: clientWidth < 560 ? 64 : 74});
    this.dots = fitCanvas(this.context, this.width, this.height);
    if (isFit) this.fit(); else this.keep();
  }

  get heads() { return this.run.groups.length * HEAD; }

  /** The height of lanes at which all are in view, unless they would be too low to be seen. */
  get fitting() {
    const each = (this.height - AXIS - this.heads - 2) / this.order.length;
    return each > 0.1 ? Math.min(TALL_LANE, each) : SMALL_LANE;
  }

  get isFit() { return Math.abs(this.lane - this.fitting) < 0.01; }

  fit() {
    Object.assign(this, {lane: this.fitting, top: 0});
    this.keep();
  }

  /** Keeps the lanes within the pane. */
  keep() {
    this.lane = Math.min(240, Math.max(Math.min(1, this.fitting), this.lane));
    this.top = Math.max(0, Math.min(this.top, this.heads + this.order.length * this.lane - (this.height - AXIS)));
  }

  /** Makes lanes taller by a factor; the lane at y stays there. */
  zoomLanes(factor, y = this.height / 2) {
    const mote = this.order[Math.min(this.placeAt(y), this.order.length - 1)], before = this.laneTop(mote);
    this.lane *= factor;
    this.keep();
    this.top += this.laneTop(mote) - before;
    this.keep();
  }

  x(moment) { return this.gutter + (moment - page.time.begin) * page.time.scale; }
  moment(x) { return page.time.begin + (x - this.gutter) / page.time.scale; }

  laneTop(mote) { return AXIS - this.top + (this.groupOf[mote] + 1) * HEAD + this.place[mote] * this.lane; }
  headTop(group) { return this.laneTop(group.motes[0]) - HEAD; }

  /** The place of the lane at y in the order of lanes; at a head, of the next lane below. */
  placeAt(y) {
    const found = this.order.findIndex(mote => this.laneTop(mote) + this.lane > y);
    return found < 0 ? this.order.length : found;
  }

  moteAt(y) {
    const mote = this.order[this.placeAt(y)];
    return mote !== undefined && this.laneTop(mote) <= y ? mote : -1;
  }

  /** The x of a line: within its moment by its place in the turn, if there is room for that. */
  lineX(line, mote, turn = null) {
    const {scale} = page.time, middle = this.x(this.run.at[line] + 0.5);
    if (scale < APART) return middle;
    const [from, to] = turn || this.run.turn(line, mote), share = Math.min(1, (scale - APART) / 20);
    return middle + scale * 0.86 * share * ((line - from + 0.5) / (to - from) - 0.5);
  }

  /** The y of a line of a kind: by its row in the lane. */
  lineY(kind, mote) {
    return this.laneTop(mote) + this.lane * (this.lane < FULL_LANE ? LOW_ROWS[kind] ?? 0.5 : ROWS[kind]);
  }

  /** The place of a line's mark; in low lanes the middle of the lane.
   * @returns {[number, number]} */
  placeOf(line, mote) {
    const {silent, kind} = this.run;
    return [this.lineX(line, mote), this.lane < SMALL_LANE ? this.laneTop(mote) + this.lane / 2 :
      this.lineY(silent[line] ? SEND : kind[line], mote)];
  }

  sees(mote) {
    const top = this.laneTop(mote);
    return top + this.lane > AXIS && top < this.height;
  }

  /** Moves the lanes so that a mote's lane is in view. */
  reveal(mote) {
    const top = this.laneTop(mote), bottom = top + this.lane;
    if (top < AXIS + 4) this.top -= AXIS + 40 - top;
    else if (bottom > this.height - 4) this.top += bottom - this.height + 40;
    // (no half of the first head)
    if (this.top > 0 && this.top < HEAD && bottom + this.top < this.height) this.top = 0;
    this.keep();
  }

  /** The motes whose lanes are in view. */
  get motesInView() { return this.order.slice(this.placeAt(AXIS), this.placeAt(this.height) + 1); }

  /** The lines of a mote that are in view: from, to. */
  linesInView(mote) {
    const first = Math.floor(this.moment(this.gutter)), last = Math.ceil(this.moment(this.width));
    return [this.run.lineAt(mote, first), this.run.lineAt(mote, last + 1)];
  }
}
