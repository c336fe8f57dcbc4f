// Lanes with too many lines for forms: as colours of pixels.
import {BOOTS, BUSY, COLLIDE, DEAF, DROP, FULL, HALT, KINDS, LEAVE, LOST, POST, PRINT, RECV, SEND, START,
  TAKE} from './data.js';
import {colours} from './forms.js';
import {HEAD} from './layout.js';
import {page} from './stage.js';

/** The colours of lines, the most notable last, with their kinds. Silences have no kind. */
const RANKED = [['paper'], ['run', START, LEAVE, POST, TAKE], ['recv', RECV], ['quiet'], ['send', SEND],
  ['print', PRINT], ['trouble', FULL, DROP, BUSY, LOST, COLLIDE, DEAF], ['ink', HALT, BOOTS]];
const RANKS = Uint8Array.from(KINDS, (_, kind) => RANKED.findIndex(its => its.includes(kind)));
const SILENT = RANKED.findIndex(([colour]) => colour === 'quiet');

/** How notable a line is. */
export const rankOf = ({silent, kind}, line) => silent[line] ? SILENT : RANKS[kind[line]];

/** The ranks of columns from one of them on, each a pixel wide, counted from moment 0: that of a mote's most notable
 * line there, or 0. */
export function ranksOf(run, mote, scale, from, count) {
  const wide = Math.max(1, Math.floor(scale * 0.7)), columns = new Uint8Array(count);
  const end = run.lineAt(mote, (from + count) / scale + 1);
  for (let i = run.lineAt(mote, from / scale - 1); i < end; i++) {
    const rank = rankOf(run, i), x = Math.round((run.at[i] + 0.5) * scale - wide / 2) - from;
    for (let j = Math.max(0, x), behind = Math.min(count, x + wide); j < behind; j++)
      if (columns[j] < rank) columns[j] = rank;
  }
  return columns;
}

/** A colour #rrggbb as a picture's number. */
function pixelOf(colour) {
  const number = parseInt(colour.slice(1), 16);
  return (0xff000000 | (number & 255) << 16 | number & 0xff00 | number >> 16) >>> 0;
}

/** Draws lanes too low for forms: each pixel has the colour of its most notable line. */
export function drawOverview(pane, motes) {
  const {context: c, gutter, lane} = pane, wide = Math.floor(pane.width - gutter), rows = new Map();
  const {begin, scale} = page.time, first = Math.round(begin * scale);
  for (const mote of motes) {
    // (lanes below a pixel share one)
    const top = pane.laneTop(mote), y = lane < 1 ? Math.floor(top) : top, row = rows.get(y);
    const ranks = ranksOf(pane.run, mote, scale, first, wide);
    if (!row) rows.set(y, ranks);
    else for (let j = 0; j < wide; j++) if (row[j] < ranks[j]) row[j] = ranks[j];
  }
  const tops = [...rows.keys()], table = Uint32Array.from(RANKED, ([it], rank) => rank && pixelOf(colours[it]));
  const pixels = new Uint32Array(wide * rows.size), picture = new OffscreenCanvas(wide, rows.size);
  let pixel = 0;
  for (const ranks of rows.values()) for (let j = 0; j < wide; j++) pixels[pixel++] = table[ranks[j]];
  picture.getContext('2d').putImageData(new ImageData(new Uint8ClampedArray(pixels.buffer), wide), 0, 0);
  c.imageSmoothingEnabled = false;
  // (the lanes of an island are drawn at once)
  for (let row = 0, end; row < tops.length; row = end) {
    for (end = row + 1; tops[end] - tops[end - 1] < HEAD;) end++;
    c.drawImage(picture, 0, row, wide, end - row, gutter, tops[row], wide, (end - row) * Math.max(1, lane));
  }
  c.imageSmoothingEnabled = true;
}
