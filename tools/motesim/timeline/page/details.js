// The selection: its lines of the report, and related ones. Each line is a button that selects that line.
import {BOOTS, FIELDS, SEND, TAKE, numbers} from './data.js';
import {byId, count, element, lineButton, list, makeButton, withPlaces} from './dom.js';
import {redraw} from './draw.js';
import {FATE_WORDS, MEDIUM, arrivalOf} from './index.js';
import {AXIS, SMALL_LANE} from './layout.js';
import {setNow} from './play.js';
import {page} from './stage.js';
import {revealMoment} from './time.js';

const {chosen} = page, NOTHING = {pane: null, mote: -1, line: -1, k: -1, copy: -1};
const MOST_LISTED = 120, LAST_LINES = 40, MOST_NAMED = 30, EDGE = 8, AWAY = 24, ABOVE = 160;

/** A row of the report as a button that selects it, with a remark; another text stands for that of the row. A text
 * about no row stays as it is. */
export function rowButton(pane, row, remark = '', text = row ? pane.run.rowText(row) : '') {
  if (!row) return element('span', '', withPlaces(text));
  const isChosen = chosen.pane === pane && chosen.line >= 0 && row === pane.run.numberOf(chosen.line, chosen.mote);
  return lineButton(`line ${row}`, text, remark, isChosen, () => chooseRow(pane, row));
}

const traceButton = (pane, line, remark = '') =>
  rowButton(pane, pane.run.numberOf(line, pane.run.moteOf(line)), remark);

export function selectNothing() {
  Object.assign(chosen, NOTHING, {times: chosen.times + 1});
  byId('card').hidden = true;
  redraw();
}

/** Shows the card at a place of the window, with room for all that it may show; without one, beside the lanes' end. */
export function showCard(x = innerWidth, y = byId('panes').getBoundingClientRect().top - ABOVE) {
  const card = byId('card');
  card.hidden = !chosen.pane;
  const {width} = card.getBoundingClientRect(), tall = parseFloat(getComputedStyle(card).maxHeight);
  const left = x + AWAY + width < innerWidth ? x + AWAY : Math.max(EDGE, x - width - AWAY);
  Object.assign(card.style, {left: `${left}px`, top: `${Math.max(EDGE, Math.min(y, innerHeight - tall - EDGE))}px`});
}

/** Selects a line of a trace; `show` brings it into view. */
export function chooseLine(pane, line, show = false) {
  const {run} = pane, mote = run.moteOf(line), isSend = run.kind[line] === SEND, isOfCopy =
    FIELDS[run.kind[line]].includes('s');
  const k = isSend || isOfCopy ? run.packetOf(isSend ? mote : run.p[line], run.x[line]) : -1;
  select(pane, {mote, line, k, copy: isOfCopy && k >= 0 ? run.copyFor(k, mote) : -1}, show);
}

export function chooseCopy(pane, k, copy, show = false) {
  const {run} = pane, line = run.copyLine[copy];
  if (line >= 0) chooseLine(pane, line, show); else select(pane, {mote: run.copyTo[copy], k, copy}, show);
}

export const chooseMote = (pane, mote, show = false) => select(pane, {mote}, show);

/** The selection, in a form that finds it in another run; or null. */
export function chosenInWords() {
  const {pane, mote, line, k, copy} = chosen, run = pane?.run;
  return pane && {mote, ...line >= 0 ? {at: run.at[line], words: run.words(line)} : {},
    ...copy >= 0 ? {sender: run.packetSender[k], number: run.packetNumber[k]} : {}};
}

/** Selects the same in the run that a pane shows now; otherwise the same copy or the mote, if that run has it. */
export function chooseAgain(pane, {mote, at = 0, words = '', sender = -1, number = 0}) {
  const {run} = pane, motes = run.begins.length, line = words ? run.find({mote, at, words}) : -1;
  const k = sender >= 0 && sender < motes ? run.packetOf(sender, number) : -1, copy = k < 0 ? k : run.copyFor(k, mote);
  if (mote >= motes) selectNothing();
  else if (line >= 0) chooseLine(pane, line);
  else if (copy >= 0) chooseCopy(pane, k, copy);
  else chooseMote(pane, mote);
}

/** Selects an item, lists it, announces it to screen readers, and draws it. */
function select(pane, it, show) {
  const {run} = pane, {line, k, mote, copy} = Object.assign(chosen, NOTHING, {pane, times: chosen.times + 1}, it);
  if (line >= 0 || k >= 0) {
    const moment = line >= 0 ? run.at[line] : arrivalOf(run, k, copy);
    setNow(Math.min(moment, run.end));
    if (show) revealMoment(moment);
  }
  if (show) pane.reveal(mote);
  const parts = [...page.panes.length > 1 ? [element('p', `In ${run.name}:`)] : [],
    element('p', '', actionsOf(pane, line))];
  if (k >= 0) parts.push(...packetParts(pane, k));
  if (line >= 0) parts.push(...eventParts(pane, line, mote), ...turnParts(pane, line, mote, k));
  else if (k < 0) parts.push(...moteParts(pane, mote));
  byId('details').replaceChildren(...parts);
  byId('spoken').textContent = [`Mote ${mote}`, line >= 0 && `moment ${run.at[line]}, ${run.told(line)}`,
    k >= 0 && `packet ${run.packetNumber[k]} of mote ${run.packetSender[k]}`,
    copy >= 0 && FATE_WORDS[run.copyFate[copy]]].filter(Boolean).join(', ');
  redraw();
}

/** The buttons for what is selected. */
function actionsOf(pane, line) {
  const why = () => makeButton('Why is this line here?', () => page.askWhy(pane, line),
    {id: 'ask-why', title: 'The chain of its causes (W)'});
  return [...line >= 0 ? [why(), ...page.expectsOf?.(pane, line) || []] : [], ...page.faultsOf?.(pane) || []];
}

/** A packet: the medium's line, the send, and each copy with its fate. */
function packetParts(pane, k) {
  const {run} = pane, sender = run.packetSender[k], send = run.sendLine[k], copies = run.copiesOf(k);
  return [element('h2', `Packet ${run.packetNumber[k]} of mote ${sender}, value ${run.packetValue[k]}`),
    list('ul', [rowButton(pane, run.numberOfPacket(k), 'in the log of the medium'),
      ...send >= 0 ? [traceButton(pane, send, `sent by mote ${sender}`)] : [],
      ...copies.map(copy => copyButton(pane, k, copy))])];
}

function copyButton(pane, k, copy) {
  const {run} = pane, to = run.copyTo[copy], fate = run.copyFate[copy], what = `mote ${to}: ${FATE_WORDS[fate]}`;
  if (run.copyLine[copy] >= 0) return traceButton(pane, run.copyLine[copy], what);
  return lineButton(`to ${to}`, `${to}@${fate === MEDIUM ? 'lost' : arrivalOf(run, k, copy)}`, what,
    chosen.copy === copy, () => chooseCopy(pane, k, copy, true));
}

/** An event, from its post to its takes or drop. A mote that boots again has lost its events. */
function eventParts(pane, line, mote) {
  const {run} = pane, {at, kind, posts, traceStart} = run, post = posts[line], items = [];
  if (post < 0) return [];
  for (let i = posts.indexOf(post, post + 1); i >= 0; i = posts.indexOf(post, i + 1)) {
    items.push(traceButton(pane, i, kind[i] === TAKE ? `taken ${count(at[i] - at[post], 'moment')} later` :
      'dropped: the process isn\'t started'));
  }
  const isLost = kind.subarray(post, traceStart[mote + 1]).includes(BOOTS);
  if (!items.length) items.push(element('span', isLost ? 'It was still waiting when the mote went off.' :
    'It is still waiting when the run ends.'));
  return [element('h2', `Event ${run.x[line]} of mote ${mote}: ${run.events[run.e[line]]} ${run.w[line]}`),
    list('ul', [traceButton(pane, post, 'posted'), ...items])];
}

/** The lines that the mote wrote at a moment, and what led to one of them. */
function turnParts(pane, line, mote, k) {
  const {run} = pane, [from, to] = run.turn(line, mote), first = Math.max(from, line - MOST_LISTED / 2);
  const lines = numbers(first, Math.min(to, first + MOST_LISTED)), more = to - from - lines.length;
  return [element(k >= 0 ? 'h3' : 'h2', `Mote ${mote} at moment ${run.at[line]}: its turn`),
    list('ol', lines.map(it => traceButton(pane, it,
      run.silent[it] ? 'a timer that sends in other runs, and not in this one' : ''))),
    element('p', more ? `${count(more, 'line')} of this turn not listed.` : ''),
    element('p', '', [makeButton(`All of mote ${mote}`, () => chooseMote(pane, mote))])];
}

/** A mote: its program, its place, the motes that it hears, and its last lines up to the moment that is shown. */
function moteParts(pane, mote) {
  const {run} = pane, hears = run.hearers[mote], first = run.traceStart[mote];
  const place = run.places ? `It is at ${run.places[mote].join(', ')}. ` : '';
  const which = hears.length <= MOST_NAMED ? `: ${hears.join(', ')}` : '';
  const behind = Math.max(run.lineAt(mote, Math.floor(page.play.now) + 1),
    Math.min(first + 1, run.traceStart[mote + 1]));
  const lines = numbers(Math.max(first, behind - LAST_LINES), behind);
  return [element('h2', `Mote ${mote}, which runs ${run.programs[run.begins[mote]]}`),
    element('p', place + (hears.length ? `It hears ${count(hears.length, 'mote')}${which}.` : 'It hears nobody.')),
    element('h3', `Its last lines up to moment ${Math.floor(page.play.now)}`),
    list('ol', lines.map(line => traceButton(pane, line)))];
}

/** Selects the line before or after the selected one (`by`), or the same moment some `lanes` below; if nothing is
 * selected, the first line in view. */
export function walk(pane, by, lanes = 0) {
  const {run} = pane, isNew = chosen.pane !== pane, isHere = !isNew && !lanes && chosen.line >= 0;
  const place = isNew ? pane.placeAt(AXIS) : pane.place[chosen.mote] + lanes;
  const mote = pane.order[Math.max(0, Math.min(place, pane.order.length - 1))];
  const first = run.traceStart[mote], end = run.traceStart[mote + 1];
  if (first === end) return chooseMote(pane, mote, true);
  const now = chosen.line >= 0 ? run.at[chosen.line] : page.play.now, moment = isNew ? pane.moment(pane.gutter) : now;
  const line = isHere ? chosen.line + by : run.lineAt(mote, Math.floor(moment));
  chooseLine(pane, Math.max(first, Math.min(end - 1, line)), true);
}

/** Selects a row of the report: a line of a trace, a mote by its head, or the send of a packet. */
export function chooseRow(pane, row) {
  const {run} = pane, found = run.atRow(row);
  if (!found) return;
  const line = found.packet === undefined ? found.line : run.sendLine[found.packet];
  if (line < 0) return void (found.mote !== undefined && chooseMote(pane, found.mote, true));
  if (pane.lane < SMALL_LANE) pane.zoomLanes(20 / pane.lane);
  chooseLine(pane, line, true);
}
