// Packets: an arrow for each copy, from its sender's lane at the moment of sending to its receiver's at arrival.
import {RECV, SEND, lowerBound} from './data.js';
import {drawArrow, drawPath, ring, stroke} from './forms.js';
import {arrivalOf} from './index.js';
import {FULL_LANE, awayFrom, nearest} from './layout.js';
import {page} from './stage.js';

const FEW = 250, MANY = 2500, LEAST_LANE = 4;

function arrowEnds(pane, k, c) {
  const {run} = pane, sender = run.packetSender[k], to = run.copyTo[c], line = run.copyLine[c], send = run.sendLine[k];
  const x0 = send >= 0 ? pane.lineX(send, sender) : pane.x(run.packetAt[k] + 0.5);
  const x1 = line >= 0 ? pane.lineX(line, to) : pane.x(arrivalOf(run, k, c) + 0.5);
  return [x0, pane.lineY(SEND, sender), x1, pane.lineY(pane.lane < FULL_LANE ? SEND : RECV, to)];
}

/** The copies whose arrows cross the view, as packets and copies; null if there are too many to draw. */
function copiesInView(pane, first, last) {
  const {run, height, lane} = pane, begin = pane.moment(pane.gutter), found = [];
  for (let k = first; k < last; k++) {
    const y0 = pane.laneTop(run.packetSender[k]);
    for (let c = run.copyStart[k]; c < run.copyStart[k + 1]; c++) {
      const y1 = pane.laneTop(run.copyTo[c]);
      if (Math.max(y0, y1) < -lane || Math.min(y0, y1) > height) continue;
      if (run.packetAt[k] + (run.copyAfter[c] || run.longest) < begin) continue;
      if (found.push([k, c]) > MANY) return null;
    }
  }
  return found;
}

export function drawArrows(pane) {
  const {drawn, run, context, lane} = pane, {packetAt, copyStart} = run;
  const first = lowerBound(packetAt, pane.moment(pane.gutter) - run.longest - 1);
  const last = lowerBound(packetAt, pane.moment(pane.width) + 1, first);
  const found = lane < LEAST_LANE ? null : copiesInView(pane, first, last);
  drawn.copies = found ? found.length : copyStart[last] - copyStart[first];
  for (const [k, copy] of found || []) {
    const ends = arrowEnds(pane, k, copy);
    drawArrow(context, ends, run.copyFate[copy], 1, lane < 14 ? 3 : 4, drawn.copies > FEW ? 0.4 : 0.85);
    pane.arrows.push({ends, k, copy});
  }
}

/** The copy whose arrow passes near a point, as packet and copy, or null. */
export const arrowNear = (pane, x, y, reach) => nearest(pane.arrows, ({ends}) => awayFrom(x, y, ends), reach);

/** Draws a copy so that it stands out, with an arrow so wide. */
export function drawCopy(pane, k, copy, wide) {
  const ends = arrowEnds(pane, k, copy);
  drawPath(pane.context, ends, 'halo', 3 * wide, 0.6);
  drawArrow(pane.context, ends, pane.run.copyFate[copy], wide, 5);
}

/** Draws the selection: a ring around its line, and the arrows of its packet. */
export function drawChosen(pane) {
  const {run, context: c} = pane, {chosen} = page, {line, k} = chosen;
  if (chosen.pane !== pane) return;
  for (const copy of k >= 0 ? run.copiesOf(k) : []) drawCopy(pane, k, copy, copy === chosen.copy ? 3 : 2);
  if (line < 0) return;
  ring(c, ...pane.placeOf(line, chosen.mote), Math.max(7, Math.min(11, pane.lane * 0.3)));
  stroke(c, 'mark', 2.5);
}
