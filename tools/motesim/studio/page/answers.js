// What only the server can answer about a run: causes with their statements, the state of a mote, and warnings.
import {chooseLine, rowButton} from '../../timeline/page/details.js';
import {byId, element, makeButton, onSubmit, withPlaces} from '../../timeline/page/dom.js';
import {showTab} from '../../timeline/page/drawer.js';
import {page} from '../../timeline/page/stage.js';
import {sayWhy, showChain} from '../../timeline/page/why.js';
import {attempt} from '../../web/page/outcome.js';

const {web} = page, ask = (what, asked) => page.backend.ask(what, {text: web.shown, ...asked});

/** The hops of a chain that the server found, with their lines in the run. */
const hopsOf = ({chain}) => chain.map(({line: row, how, for: wait, ...hop}) =>
  ({...hop, row, line: how === 'start' ? -1 : row - hop.mote - 2, wait: wait || ''}));

async function chainOf(run, line) {
  const answer = await ask('why', {row: run.numberOf(line, run.moteOf(line))});
  showTab('why');
  if (answer.said) throw new Error(answer.said);
  return hopsOf(answer);
}

/** Asks a question in the tab *Why*: answers it with a chain, or with the near misses. */
export async function askQuestion(question) {
  const [pane] = page.panes;
  byId('why-asked').value = question;
  showTab('why');
  const answer = pane && question && await attempt(() => ask('why', {question}));
  if (!answer) return;
  if (answer.said) return sayWhy(answer.said);
  if (answer.chain) {
    const hops = hopsOf(answer);
    showChain(pane, hops, answer.about || (answer.holds ? '' : 'The expectation does not hold.'));
    return chooseLine(pane, Math.max(0, hops[0].line), true);
  }
  sayWhy(`${answer.about}. The nearest:`, answer.motes.flatMap(({mote, misses}) =>
    misses.map(it => rowButton(pane, it.line, '', `mote ${mote}: ${it.words}`))));
}

/** Shows the state of the mote after the selected line, or after its last one up to the moment that is shown, if this
 * has changed. */
async function showState({run}) {
  if (byId('state').hidden) return;
  const {chosen, play} = page, mote = Math.max(0, chosen.mote);
  const line = chosen.line >= 0 ? chosen.line : run.lineAt(mote, Math.floor(play.now) + 1) - 1;
  const row = run.numberOf(line, mote), asked = `${web.number} ${row}`, isThere = line >= run.traceStart[mote];
  if (page.state === asked) return;
  page.state = asked;
  const state = isThere ? await attempt(() => ask('state', {row})) : {rows: []};
  if (!state || page.state !== asked) return;
  byId('state-at').replaceChildren(...isThere ? [element('strong', `Mote ${mote} at moment ${run.at[line]}`),
    `, after line ${row} of the report: `, element('code', run.text(line))] : [`Mote ${mote} has done nothing yet.`]);
  byId('state-rows').replaceChildren(...(state.rows || [{text: state.said}]).map(it =>
    element('div', '', withPlaces(it.text), {className: it.is_changed ? 'changed' : ''})));
}

/** Marks the statement that wrote the selected line, as a debugger does. */
async function showStatement({run}) {
  const {times, line, mote} = page.chosen;
  if (page.marked === times) return;
  page.marked = times;
  const found = line >= 0 && await ask('statement', {row: run.numberOf(line, mote)}).catch(() => null);
  if (page.chosen.times === times) web.pad.lightRow(found ? found.statement : -1);
}

/** Shows warnings about what is legal but probably not meant. A click leads to its place. */
async function showWarnings(text, number) {
  const found = await attempt(() => ask('warn', {...web.document, text}));
  if (!found || found.gone || number !== web.number) return;
  Object.assign(page.panes[0].run, {fields: found.fields});
  byId('warnings').hidden = !found.warnings.length;
  byId('warnings').replaceChildren(...found.warnings.map(({name, text: words, place}) =>
    makeButton(`Warning (${name}): ${words}.`, () => { if (place) web.pad.select(...place); })));
}

export function beginAnswers() {
  Object.assign(page, {chainOf, askQuestion});
  onSubmit('why-form', () => askQuestion(byId('why-asked').value.trim()));
  byId('why').append(byId('why-chain'));
  page.followers.push(showState, showStatement);
  page.reactions.outdated.push(() => { byId('warnings').hidden = true; });
  page.reactions.ran.push(showWarnings);
}
