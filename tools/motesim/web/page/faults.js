// Faults of runs, each as its kind, its numbers and its text: those that the text carries, as a list beside it and on
// the map; and the words about faults that were tried.
import {byId, element, makeButton} from '../../timeline/page/dom.js';
import {drawForm, drawPath, ring, stroke} from '../../timeline/page/forms.js';
import {page} from '../../timeline/page/stage.js';
import {FAULT, KINDS as MARK, commentsIn, withComment, withComments, withoutComment} from './comments.js';
import {change} from './web.js';

/** A fault, as motecheck has it: `mote` is the one that sends, is silent or off.
 * @typedef {{kind: string, mote: number, to?: number, packet?: number, text: string}} Fault */

/** The moments after each quarter of a run, which rise. */
const quarters = ({end}) => [1, 2, 3].map(i => Math.max(i, Math.round(end * i / 4))).join();

/** The kinds of faults that can be tried: the kind, the name, and the option of motecheck for a run.
 * @type {[string, string, (run: any) => string][]} */
export const KINDS = [['link', 'links', () => '--links'], ['silent', 'silent motes', () => '--silent'],
  ['lost', 'lost copies', () => '--lost'], ['late', 'late copies', () => '--late=1,4'],
  ['restarts', 'restarts', run => `--restarts=${quarters(run)}`],
  ['off', 'motes that fail', run => `--off=${quarters(run)}`]];
const FORMS = [/^(?<kind>link) (?<mote>\d+) to (?<to>\d+) is broken$/,
  /^mote (?<mote>\d+) (?:is )?(?<kind>silent|off|restarts)\b/,
  /^packet (?<packet>\d+) of mote (?<mote>\d+) is (?:\d+ )?(?<kind>lost|late)(?: on the way to mote (?<to>\d+))?$/];

const {web, checks} = page;

/** A fault from its text. @returns {Fault} */
export function faultOf(text) {
  const {kind = '', ...its} = FORMS.map(form => form.exec(text)?.groups).find(Boolean) || {};
  const named = Object.entries(its).filter(([, value]) => value !== undefined);
  return /** @type {any} */ ({mote: -1, ...Object.fromEntries(named.map(([name, value]) => [name, Number(value)])),
    kind, text});
}

export const faultsNow = () => commentsIn(web.history.text, FAULT);

/** The kinds of faults that a text is to survive; null if it names none. */
export function kindsIn(text) {
  const [named] = commentsIn(text, MARK);
  return named === undefined ? null : KINDS.map(([, name]) => name).filter(it => named.split(/, */).includes(it));
}

export const withKinds = (text, kinds) => withComments(text, MARK, () => [kinds.join(', ')]);

/** A fault in few words: `link 1 to 2`, `mote 3`, `packet 4 of mote 0 to mote 5`. */
export const short = ({text}) => text.replace(/ is (broken|silent|lost)( on the way)?/, '');

/** The faults that alone break something, in words: a few by their names, more by their kinds. */
export function namesInWords(faults) {
  const names = faults.length <= 3 ? faults.map(short) : KINDS.flatMap(([kind, name]) => {
    const its = faults.filter(it => it.kind === kind);
    return its.length > 2 ? `one of ${its.length} ${name}` : its.map(short);
  });
  return names.length > 1 ? `${names.slice(0, -1).join(', ')} or ${names[names.length - 1]}` : names.join();
}

/** Makes a fault a part of the run, or takes it away again. */
function toggle(fault) {
  const changed = faultsNow().includes(fault) ? withoutComment : withComment;
  change(changed(web.history.text, FAULT, fault), 'fault');
}

/** Makes faults those of the run of a text. */
export const setFaults = faults => change(withComments(web.history.text, FAULT, () => faults), 'fault');

function showList() {
  const faults = faultsNow();
  byId('run-faults').hidden = !faults.length;
  byId('run-faults').replaceChildren(faults.length > 1 ? 'Faults: ' : 'Fault: ', ...faults.map(text => {
    const isUnused = checks.unused.includes(text);
    return element('span', text, [makeButton('×', () => toggle(text), {title: 'Run without this fault'})],
      {className: isUnused ? 'chip unused' : 'chip', title: isUnused ? 'The run sends no such copy.' : ''});
  }));
}

/** The buttons that try a fault of what is selected. */
function faultsOf({run}) {
  const {mote, line, k, copy} = page.chosen, from = k >= 0 ? run.packetSender[k] : mote, to = run.copyTo[copy];
  const packet = `packet ${run.packetNumber[k]} of mote ${from} is lost`, silent = `mote ${from} is silent`;
  const link = `link ${from} to ${to} is broken`, own = faultsNow();
  const its = copy >= 0 ? {[`${packet} on the way to mote ${to}`]: 'this copy is lost', [link]: link} :
    k >= 0 ? {[packet]: 'this packet is lost', [silent]: silent} : line < 0 ? {[silent]: 'it is silent'} : {};
  return Object.entries(its).map(([text, said]) =>
    makeButton(own.includes(text) ? `Not so: ${said}` : `What if ${said}?`, () => toggle(text), {title: text}));
}

/** Draws on the map the faults of the run, as crosses and clocks; and those that alone break what must hold, in red. */
function drawOnMap(map) {
  const {context: c, run, radius} = map, here = its => its.filter(it => it.mote >= 0 &&
    Math.max(it.mote, it.to ?? 0) < run.begins.length);
  for (const {kind, mote, to} of here((run.faults || []).map(faultOf))) {
    const x = map.x(mote), y = map.y(mote);
    if (to === undefined) drawForm(c, kind === 'lost' ? 'lost' : 'cross', x, y, radius);
    else if (kind === 'late') drawForm(c, 'timer', (x + map.x(to)) / 2, (y + map.y(to)) / 2, 5);
    else map.drawLoss(c, mote, to);
  }
  for (const {kind, mote, to} of here(checks.weak)) {
    if (kind === 'link') drawPath(c, map.way(mote, to, radius), 'trouble', 4, 0.8);
    if (!['silent', 'restarts', 'off'].includes(kind)) continue;
    ring(c, map.x(mote), map.y(mote), radius + 4);
    stroke(c, 'trouble', 2.5);
  }
}

export function beginFaults() {
  page.mapOverlays.push(drawOnMap);
  page.faultsOf = faultsOf;
  page.toggleFault = toggle;
  for (const name of ['outdated', 'opened', 'judged']) page.reactions[name].push(showList);
}
