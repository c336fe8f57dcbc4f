// The forms of lines and copies, each drawn around a point. No two differ only by colour.
import {MEDIUM} from './index.js';

export const colours = {};
// (pictures of forms in these colours)
const stamps = new Map();

/** Reads the colours from the style, those of the reader's system or of print, and draws the legend in them. */
export function readColours() {
  const style = getComputedStyle(document.documentElement);
  for (const name of ['paper', 'panel', 'ink', 'quiet', 'grid', 'edge', 'band', 'send', 'recv', 'trouble', 'print',
    'timer', 'run', 'run-ink', 'event', 'mark', 'halo', 'cursor', 'line']) {
    colours[name] = style.getPropertyValue('--' + name).trim();
  }
  stamps.clear();
  drawLegend();
}

export function path(c, points, close = false) {
  c.beginPath();
  for (let i = 0; i < points.length; i += 2) {
    if (i) c.lineTo(points[i], points[i + 1]); else c.moveTo(points[i], points[i + 1]);
  }
  if (close) c.closePath();
}

export function stroke(c, colour, width) {
  c.strokeStyle = colours[colour];
  c.lineWidth = width;
  c.stroke();
}

export function fill(c, colour) {
  c.fillStyle = colours[colour];
  c.fill();
}

/** Sets the font of texts, and where they are at a point. */
export const setFont = (c, size, textAlign = 'left', textBaseline = 'middle', weight = '') =>
  Object.assign(c, {font: `${weight} ${size}px system-ui, "DejaVu Sans", sans-serif`, textAlign, textBaseline});

/** Writes a text in a colour, at most so wide. @param {number=} most */
export function write(c, text, x, y, colour, most) {
  c.fillStyle = colours[colour];
  c.fillText(text, x, y, most);
}

export function drawPath(c, points, colour, width, alpha = 1, dash = /** @type {number[]} */ ([])) {
  c.save();
  c.globalAlpha = alpha;
  c.setLineDash(dash);
  path(c, points);
  stroke(c, colour, width);
  c.restore();
}

/** Makes a picture so large, and returns the dots of a pixel. */
export function fitCanvas(c, width, height) {
  const dots = window.devicePixelRatio || 1;
  Object.assign(c.canvas, {width: Math.round(width * dots), height: Math.round(height * dots)});
  c.canvas.style.height = `${height}px`;
  c.setTransform(dots, 0, 0, dots, 0, 0);
  return dots;
}

/** Fills a rectangle with a colour. */
export function box(c, colour, x, y, wide, tall) {
  c.fillStyle = colours[colour];
  c.fillRect(x, y, wide, tall);
}

/** A circle as the path. */
export function ring(c, x, y, r) {
  c.beginPath();
  c.arc(x, y, r, 0, 7);
}

const UP = [0, -1.1, 1, 0.8, -1, 0.8], DOWN = [0, 1.1, 1, -0.8, -1, -0.8], SQUARE = [-1, -1, 1, -1, 1, 1, -1, 1];
const DIAMOND = [0, -1, 1, 0, 0, 1, -1, 0], HOURGLASS = [-1, -1, 1, -1, -1, 1, 1, 1, -1, -1];
const BRACKET = [0.7, -1.3, 0, -1.3, 0, 1.3, 0.7, 1.3], END = [-0.7, -1.3, 0, -1.3, 0, 1.3, -0.7, 1.3];
const OCTAGON = [0, 1, 2, 3, 4, 5, 6, 7].map(i => (i + 0.5) * Math.PI / 4).flatMap(a =>
  [Math.cos(a) * 1.5, Math.sin(a) * 1.5]);
const STAR = [0, 1, 2].map(i => (i / 3 + 0.5) * Math.PI).map(a => [Math.cos(a) * 1.2, Math.sin(a) * 1.2]).map(
  ([x, y]) => ({lines: [-x, -y, x, y], edge: 'trouble', wide: 1.8}));
const CROSS = [[-1, -1, 1, 1], [-1, 1, 1, -1]].map(lines => ({lines, edge: 'trouble', wide: 1.6}));

/** The parts of each form: lines or a circle, with the radius as the unit; filled, or with an edge.
 * @type {Record<string, {lines?: number[], circle?: number, fill?: string, edge?: string, wide?: number}[]>} */
const FORMS = {
  send: [{lines: UP, fill: 'send'}],
  silent: [{lines: UP, fill: 'paper', edge: 'quiet'}],
  recv: [{lines: DOWN, fill: 'recv'}],
  tick: [{lines: [0, -1, 0, 1], edge: 'recv', wide: 1}],
  lost: [{lines: SQUARE, fill: 'paper', edge: 'trouble'}, ...CROSS],
  collide: STAR,
  deaf: [{circle: 1, fill: 'paper', edge: 'trouble'}, {lines: [-1, 1, 1, -1], edge: 'trouble'}],
  post: [{circle: 0.75, fill: 'event'}],
  full: [{circle: 0.75, fill: 'trouble'}, {lines: [-1.3, -1.3, 1.3, 1.3], edge: 'trouble', wide: 1.8}],
  take: [{circle: 0.75, fill: 'paper', edge: 'event'}],
  timer: [{circle: 1, fill: 'paper', edge: 'timer'}, {lines: [0, -0.7, 0, 0, 0.6, 0], edge: 'timer', wide: 1.2}],
  drop: [{lines: DIAMOND.map(it => 1.2 * it), fill: 'paper', edge: 'trouble'},
    {lines: [-0.5, 0, 0.5, 0], edge: 'trouble'}],
  print: [{lines: DIAMOND, fill: 'print'}],
  busy: [{lines: HOURGLASS, edge: 'trouble'}],
  start: [{lines: BRACKET, edge: 'run-ink', wide: 1.8}],
  leave: [{lines: END, edge: 'run-ink', wide: 1.8}],
  halt: [{lines: OCTAGON, fill: 'trouble'}, {lines: [-0.8, 0, 0.8, 0], edge: 'paper', wide: 2}],
  boots: [{circle: 1.2, fill: 'paper', edge: 'run-ink'}, {lines: UP.map(it => 0.6 * it), fill: 'run-ink'}],
  run: [{lines: [-1.8, -1, 1.8, -1, 1.8, 1, -1.8, 1], fill: 'run'}],
  cross: CROSS,
  bar: [{lines: [0, -1, 0, 1], edge: 'quiet', wide: 2}],
};

export function drawForm(c, name, x, y, r) {
  for (const {lines, circle, fill: inside, edge, wide = 1.4} of FORMS[name]) {
    if (lines) path(c, lines.map((it, i) => (i % 2 ? y : x) + it * r), Boolean(inside));
    else ring(c, x, y, circle * r);
    if (inside) fill(c, inside);
    if (edge) stroke(c, edge, wide);
  }
}

/** A form as a small picture of a square, made once for each size. `draw` draws it around a point.
 * @param {string} name @param {number} r @param {number} dots those of a pixel
 * @param {(c: any, at: number) => void} draw */
export function stampOf(name, r, dots, draw = (c, at) => drawForm(c, name, at, at, r)) {
  const key = `${name} ${r} ${dots}`;
  if (!stamps.has(key)) {
    const side = Math.ceil(r * 3.4 + 2) * dots, canvas = new OffscreenCanvas(side, side), c = canvas.getContext('2d');
    c.scale(dots, dots);
    draw(c, side / dots / 2);
    stamps.set(key, canvas.transferToImageBitmap());
  }
  return stamps.get(key);
}

/** The line and the end of an arrow by the fate of its copy, in the order of fates. */
const ARROWS = [{end: 'head', colour: 'recv'}, {end: 'full'}, {end: 'deaf'}, {dash: [8, 3, 2, 3], end: 'lost'},
  {dash: [2, 3], end: 'collide'}, {dash: [6, 4], end: 'cross'}, {dash: [1, 4], end: 'bar', colour: 'quiet'},
  {dash: [10, 3], end: 'open', colour: 'quiet'}, {end: 'open', colour: 'recv'}];

/** The head of an arrow. */
export function head(c, ends, r, colour, filled) {
  const [x0, y0, x1, y1] = ends, angle = Math.atan2(y1 - y0, x1 - x0);
  const [from, to] = [-0.45, 0.45].map(it => [x1 - Math.cos(angle + it) * r, y1 - Math.sin(angle + it) * r]);
  path(c, [...from, x1, y1, ...to], filled);
  if (filled) fill(c, colour); else stroke(c, colour, 1.4);
}

/** Draws an arrow. That of a copy lost on the way ends before it arrives, with a cross. */
export function drawArrow(c, places, fate, width, size, alpha = 1) {
  const {dash = [], end, colour = 'trouble'} = ARROWS[fate], way = fate === MEDIUM ? 0.62 : 1;
  const [x0, y0, x1, y1] = places, ends = [x0, y0, x0 + (x1 - x0) * way, y0 + (y1 - y0) * way];
  drawPath(c, ends, colour, width, alpha, dash);
  c.globalAlpha = alpha;
  if (end === 'head' || end === 'open') head(c, ends, size * 1.7, colour, end === 'head');
  else drawForm(c, end, ends[2], ends[3], end === 'cross' ? size * 0.9 : size);
  c.globalAlpha = 1;
}

function drawLegend() {
  for (const canvas of /** @type {NodeListOf<HTMLCanvasElement>} */ (document.querySelectorAll('#forms canvas'))) {
    const {form, fate} = canvas.dataset, c = canvas.getContext('2d');
    fitCanvas(c, 56, 20);
    if (fate) drawArrow(c, [5, 10, 47, 10], Number(fate), 1.4, 4.5); else drawForm(c, form, 28, 10, 5);
  }
}
