// What is near a point of the lanes or of a map, and its words.
import {arrowNear} from './arrows.js';
import {numbers} from './data.js';
import {chooseCopy, chooseLine, chooseMote} from './details.js';
import {count} from './dom.js';
import {FATE_WORDS, delayOf} from './index.js';
import {SMALL_LANE} from './layout.js';
import {rankOf} from './overview.js';
import {page} from './stage.js';

/** Pixels from a moment to those that show its line in a low lane. */
const REACH = 4;

/** What is at a point of the lanes, with its words and what selects it: a mote by its name, a copy of a packet, or a
 * line; null if nothing is.
 * @returns {{words: string, choose: () => void}|null} */
export function itemAt(pane, x, y) {
  const {run, hits} = pane, mote = pane.moteAt(y);
  if (x < pane.gutter) return mote < 0 ? null : {words: moteInWords(run, mote), choose: () => chooseMote(pane, mote)};
  const inPixel = mote >= 0 && pane.lane < SMALL_LANE ? lineOfPixel(pane, mote, x) : -1;
  let best = 10, line = inPixel;
  for (let i = 0; i < hits.length; i += 3) {
    const away = Math.hypot(hits[i] - x, hits[i + 1] - y);
    if (away < best) [best, line] = [away, hits[i + 2]];
  }
  const found = inPixel >= 0 ? null : arrowNear(pane, x, y, line >= 0 ? Math.min(3, best - 3) : 7);
  if (found) return {words: copyInWords(run, found), choose: () => chooseCopy(pane, found.k, found.copy)};
  return line < 0 ? null : {words: lineInWords(run, line), choose: () => chooseLine(pane, line)};
}

/** The line of a low lane whose colour a pixel has: the most notable one of its turn; -1 if there is none. */
function lineOfPixel({run, gutter}, mote, x) {
  const {begin, scale} = page.time, moment = begin + (x - gutter) / scale - 0.5;
  const near = run.lineAt(mote, Math.ceil(moment - REACH / scale)), at = run.at[near];
  if (near === run.traceStart[mote + 1] || at > moment + REACH / scale) return -1;
  return numbers(...run.turn(near, mote)).reduce((best, it) => rankOf(run, it) > rankOf(run, best) ? it : best);
}

const lineInWords = (run, line) =>
  `mote ${run.moteOf(line)}, moment ${run.at[line]}: ${run.told(line)} (click for more)`;

const copyInWords = (run, {k, copy}) => `packet ${run.packetNumber[k]} of mote ${run.packetSender[k]} to mote ` +
  `${run.copyTo[copy]}, sent at ${run.packetAt[k]}: ${FATE_WORDS[run.copyFate[copy]]}`;

/** A mote in words: its program and the motes that it hears. */
export function moteInWords(run, mote) {
  const hears = run.hearers[mote].length;
  return `mote ${mote} runs ${run.programs[run.begins[mote]]} and hears ${hears ? count(hears, 'mote') : 'nobody'}`;
}

/** A link in words: how long its packets take, and which are lost. */
export function linkInWords(run, s, r) {
  const way = (from, to) => {
    const every = run.lossOf.get(from * 65536 + to);
    return every ? `; ${from} to ${to} loses ${every === 1 ? 'all' : `1 in ${every}`}` : '';
  };
  return `mote ${s} and mote ${r}, ${count(delayOf(run, s, r), 'moment')} apart${way(s, r)}${way(r, s)}`;
}
