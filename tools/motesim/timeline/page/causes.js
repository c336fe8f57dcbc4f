// The causes of a run's lines, and the chains that they make.
import {BOOTS, COLLIDE, DROP, LOST, POST, RECV, START, TAKE, isCall} from './data.js';
import {count} from './dom.js';
import {unpacked} from './packing.js';

const WAITS = {timer: 'waiting for timers', medium: 'on the way', queue: 'in queues',
  full: 'for timers that found the queue full'};

/** Unpacks the causes that a page has of its run. `causeOf` has the cause of each line, -1 for the head of a trace. */
async function readCauses(run) {
  const packed = run.why;
  if (!packed || packed.none || run.causeOf) return;
  const back = new Uint32Array((await unpacked(packed.causes)).buffer);
  run.reasonOf = new Uint16Array((await unpacked(packed.reasons)).buffer);
  run.causeOf = Int32Array.from(back, (far, line) => far ? line - (far & 1 ? -(far >>> 1) : far >>> 1) : -1);
}

const isArrival = kind => kind === RECV || kind === LOST || kind === COLLIDE;

/** The line that led to a line, or -1, and the reason, as far as the report shows them: what set a timer isn't there.
 * @returns {[number, string]} */
function shownCauseOf(run, line, mote) {
  const {kind, p, x, at} = run, copy = run.handLine.indexOf(line), [from] = run.turn(line, mote);
  const boots = kind.lastIndexOf(BOOTS, line);
  if (isArrival(kind[line])) return [run.sendLine[run.packetOf(p[line], x[line])] ?? -1, ''];
  if (kind[line] === TAKE || kind[line] === DROP) return [run.posts[line], ''];
  if (copy >= 0) return [run.copyLine[copy], ''];
  if (kind[line] === POST && run.e[line] === run.timerEvent) return [-1, 'a timer had come to its end'];
  if (kind[line] === BOOTS) return [-1, 'a fault, after which the mote boots'];
  if (kind[line] === START && boots >= from) return [boots, 'the mote boots'];
  if (kind[line] === START && !at[line]) return [-1, 'the start'];
  for (let before = line - 1; before >= from; before--) {
    if (isCall(kind[before])) return [before, `written while ${run.process(p[before])} ran`];
  }
  return [-1, at[line] ? 'something that the report does not show, such as a callback' : 'the start'];
}

/** A hop of a chain: a line with the reason, and the wait since its cause. `line` is -1 at a head. */
function hopOf(run, line) {
  const mote = run.moteOf(line), at = run.at[line], kind = run.kind[line];
  const packetIn = one => `packet ${run.x[one]} of mote ${run.p[one]}`;
  let cause, because, wait = '';
  if (run.causeOf) [cause, [because, wait]] = [run.causeOf[line], run.why.texts[run.reasonOf[line]]];
  else [cause, because] = shownCauseOf(run, line, mote);
  const waited = cause >= 0 ? at - run.at[cause] : run.causeOf ? at : 0, moments = count(waited, 'moment');
  if (isArrival(kind)) {
    wait = 'medium';
    because = `${packetIn(line)} arrived after ${moments} on the way` +
      (kind === LOST ? ', when eight packets were waiting' : kind === COLLIDE ? ', with others' : '');
  } else if (kind === TAKE || kind === DROP) {
    wait = waited ? 'queue' : '';
    because = (kind === TAKE ? `event ${run.x[line]} was next in the queue` :
      `event ${run.x[line]} was dropped: ${run.process(run.p[line])} was not on the process list`) +
      (waited ? `, ${moments} after it was posted` : '');
  } else if (!because && run.kind[cause] === RECV) {
    because = `the radio process hands on ${packetIn(cause)}`;
  }
  return {line, mote, at, cause, row: run.numberOf(line, mote), words: run.words(line), waited, wait, because};
}

/** The chain of a line, back to the head of a trace if the page has its causes. */
export async function chainOf(run, line) {
  await readCauses(run);
  const hops = [hopOf(run, line)];
  for (let [{cause}] = hops; cause >= 0; {cause} = hops[hops.length - 1]) hops.push(hopOf(run, cause));
  if (run.causeOf) {
    const {mote} = hops[hops.length - 1];
    hops.push({line: -1, mote, at: 0, cause: -1, row: run.traceStart[mote] + mote + 1,
      words: `mote ${mote} ${run.programs[run.begins[mote]]}`, waited: 0, wait: '', because: 'the start'});
  }
  return hops;
}

/** The moments of a chain by their uses, in words. */
export function pathOf(hops) {
  const parts = Object.entries(WAITS).flatMap(([wait, words]) => {
    const its = hops.filter(hop => hop.wait === wait), sum = its.reduce((all, hop) => all + hop.waited, 0);
    return its.length ? [`${sum} ${words}${wait === 'medium' ? `, over ${count(its.length, 'hop')}` : ''}`] : [];
  });
  return `Critical path: ${count(hops[0].at, 'moment')}${parts.length ? `: ${parts.join('; ')}` : ''}.`;
}
