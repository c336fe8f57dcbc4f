// Facts that follow from a run's lines, computed once when it is opened: the fate of each copy, which lines belong
// together, which motes hear each other, and what each island sends.
import {BOOTS, COLLIDE, DEAF, DROP, FULL, HALT, LOST, POST, PRINT, RECV, SEND, TAKE, isCall} from './data.js';

export const FATE_WORDS = ['received and handed on', 'received, but the event queue was full',
  'received, but the program has no receiver', 'overflowed: eight packets were waiting already', 'collided with others',
  'lost on the way', 'arrived at a mote that had halted', 'would arrive after the end', 'received, but not handed on'];
export const [HANDED, REFUSED, UNHEARD, RING, COLLIDED, MEDIUM, GONE, LEFT, RECEIVED] = FATE_WORDS.keys();
const OF_ARRIVAL = {[RECV]: RECEIVED, [LOST]: RING, [COLLIDE]: COLLIDED};
const OF_HANDING = {[POST]: HANDED, [FULL]: REFUSED, [DEAF]: UNHEARD};
/** The most islands that are shown apart. */
const MOST_GROUPS = 8;

/** Lets the browser draw and react between two pieces of long work. */
export const breathe = () => new Promise(done => setTimeout(done));

/** Adds to a run all that follows from its lines. */
export async function indexRun(run) {
  Object.assign(run, {
    timerEvent: run.events.indexOf('timer'),
    packetEvent: run.events.indexOf('packet'),
    /** The moments at which anything happens; the prints of each mote, and the moment at which it halted. */
    busy: new Uint8Array(run.end + 1),
    prints: Array.from(run.begins, () => []),
    haltAt: new Float64Array(run.begins.length).fill(Infinity),
    /** The post of each post, take and drop. */
    posts: new Int32Array(run.count).fill(-1),
  });
  indexPackets(run);
  for (const mote of run.begins.keys()) {
    readTrace(run, mote);
    if (mote % 100 === 99) await breathe();
  }
  findHearers(run);
  findGroups(run);
  await breathe();
  findSilence(run);
}

/** Numbers the packets of each sender, finds the copies of each, and the fates of those without a line. */
function indexPackets(run) {
  const {packets, copies, packetSender, packetAt, copyAfter} = run, sent = new Uint32Array(run.begins.length);
  run.packetNumber = Uint32Array.from(packetSender, sender => sent[sender]++);
  run.sentStart = sums(sent);
  run.copyStart = sums(run.copyCount);
  run.sentPackets = new Uint32Array(packets);
  run.sendLine = new Int32Array(packets).fill(-1);
  run.copyLine = new Int32Array(copies).fill(-1);
  run.handLine = new Int32Array(copies).fill(-1);
  run.copyFate = new Uint8Array(copies);
  run.longest = copyAfter.reduce((most, it) => Math.max(most, it), 1);
  for (let k = 0; k < packets; k++) {
    run.sentPackets[run.sentStart[packetSender[k]] + run.packetNumber[k]] = k;
    for (let c = run.copyStart[k]; c < run.copyStart[k + 1]; c++) {
      run.copyFate[c] = !copyAfter[c] ? MEDIUM : packetAt[k] + copyAfter[c] > run.end ? LEFT : GONE;
    }
  }
}

/** The sums of the numbers before each place, and of all. */
function sums(numbers) {
  const found = new Uint32Array(numbers.length + 1);
  numbers.forEach((it, i) => { found[i + 1] = found[i] + it; });
  return found;
}

/** Reads the trace of a mote. A take and a drop get the event and the word of their post; in each life of the mote,
 * posts are numbered from 0. The copies that it received at a moment are handed on in their order. */
function readTrace(run, mote) {
  const {kind, at, x, p, e, w} = run, end = run.traceStart[mote + 1];
  let posts = [], waiting = [];
  for (let i = run.traceStart[mote]; i < end; i++) {
    const k = kind[i], isPost = k === POST || k === FULL;
    run.busy[at[i]] = 1;
    if (waiting.length && at[i] !== at[i - 1]) waiting = [];
    if (waiting.length && (k === DEAF || isPost && e[i] === run.packetEvent && w[i] === w[run.copyLine[waiting[0]]])) {
      const copy = waiting.shift();
      run.handLine[copy] = i;
      run.copyFate[copy] = OF_HANDING[k];
    }
    if (k === POST) run.posts[i] = posts[posts.push(i) - 1];
    else if (k === TAKE || k === DROP) {
      const post = run.posts[i] = posts[x[i]];
      [e[i], w[i]] = [e[post], w[post]];
    } else if (k in OF_ARRIVAL) {
      const copy = run.copyFor(run.packetOf(p[i], x[i]), mote);
      if (copy < 0) continue;
      run.copyLine[copy] = i;
      run.copyFate[copy] = OF_ARRIVAL[k];
      if (k === RECV) waiting.push(copy);
    } else if (k === SEND) run.sendLine[run.packetOf(mote, x[i])] = i;
    else if (k === PRINT) run.prints[mote].push(i);
    else if (k === HALT) run.haltAt[mote] = at[i];
    else if (k === BOOTS) [posts, run.haltAt[mote]] = [[], Infinity];
  }
}

/** The square of the distance between two motes. */
function squareOf(run, s, r) {
  const [x, y] = run.places[s], [otherX, otherY] = run.places[r];
  return (x - otherX) ** 2 + (y - otherY) ** 2;
}

/** Finds who hears whom: by places and range, or, without a scenario, by the copies of each mote's first packet. */
export function findHearers(run) {
  const all = [...run.begins.keys()];
  run.hearers = all.map(s => run.places ? all.filter(r => r !== s && squareOf(run, s, r) <= run.range ** 2) :
    run.sentStart[s] < run.sentStart[s + 1] ? run.copiesOf(run.sentPackets[run.sentStart[s]]).map(c => run.copyTo[c]) :
      []);
  run.losses = run.losses || [];
  run.lossOf = new Map(run.losses.map(([from, to, every]) => [from * 65536 + to, every]));
}

/** The moments that a copy needs from s to r. For lost copies the report doesn't have them. */
export const delayOf = (run, s, r) => run.places ? run.base + Math.floor(squareOf(run, s, r) / run.per) : 1;

/** The moment at which a copy arrives, or would have arrived. */
export const arrivalOf = (run, k, c) =>
  run.packetAt[k] + (run.copyAfter[c] || delayOf(run, run.packetSender[k], run.copyTo[c]));

/** Islands: motes that reach each other over any number of hops. Motes that hear nobody make one group. */
function findGroups(run) {
  const near = run.hearers.map(list => [...list]), seen = new Set(), islands = [], alone = [];
  run.hearers.forEach((list, s) => list.forEach(r => near[r].push(s)));
  for (const mote of near.keys()) {
    if (seen.has(mote)) continue;
    const island = new Set([mote]);
    for (const one of island) for (const other of near[one]) island.add(other);
    for (const one of island) seen.add(one);
    if (island.size > 1) islands.push([...island].sort((a, b) => a - b)); else alone.push(mote);
  }
  const groups = islands.length && alone.length ? [...islands, alone] : islands;
  const shown = groups.length && groups.length <= MOST_GROUPS ? groups : [[...near.keys()]];
  run.groups = shown.map((motes, g) => ({motes, name: motes === alone ? `Alone: ${motesInWords(motes)}` :
    shown.length > 1 ? `Island ${g + 1}: ${motesInWords(motes)}` : `Net: ${motesInWords(motes)}`}));
}

function motesInWords(motes) {
  const [first] = motes, last = motes[motes.length - 1];
  return motes.length === 1 ? `mote ${first}` : last - first === motes.length - 1 ? `motes ${first} to ${last}` :
    `${motes.length} motes`;
}

/** Finds silences: runs of a timer that don't send, though the timer sends in another run of the same program; and the
 * moments of the sends and silences of each island. */
function findSilence(run) {
  const {kind, at, e, w, p, traceStart} = run, speaking = new Set(), quiet = [];
  run.begins.forEach((program, mote) => {
    for (let i = traceStart[mote], end = traceStart[mote + 1]; i < end; i++) {
      if (kind[i] !== TAKE || e[i] !== run.timerEvent) continue;
      const key = (program * 65536 + p[i]) * 65536 + w[i];
      let next = i + 1;
      while (next < end && at[next] === at[i] && kind[next] !== SEND && !isCall(kind[next])) next++;
      if (next < end && at[next] === at[i] && kind[next] === SEND) speaking.add(key); else quiet.push({i, key, mote});
    }
  });
  const silences = quiet.filter(({key}) => speaking.has(key));
  run.silent = new Uint8Array(run.count);
  for (const {i} of silences) run.silent[i] = 1;
  for (const group of run.groups) {
    const motes = new Set(group.motes);
    group.sends = run.packetAt.filter((_, k) => motes.has(run.packetSender[k]));
    group.silences = Uint32Array.from(silences.filter(({mote}) => motes.has(mote)), ({i}) => at[i]).sort();
  }
}
