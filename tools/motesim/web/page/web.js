// The page on which a scenario is written: it runs while it is changed, with its map, its lanes, and the effect of
// each change in a sentence. A backend runs the texts.
import {selectNothing} from '../../timeline/page/details.js';
import {byId, count, onClick} from '../../timeline/page/dom.js';
import {drawAll} from '../../timeline/page/draw.js';
import {beginDrawer, showSums} from '../../timeline/page/drawer.js';
import {readColours} from '../../timeline/page/forms.js';
import {showInstead, showRuns, whole} from '../../timeline/page/main.js';
import {setNow, startPlaying, stopPlaying} from '../../timeline/page/play.js';
import {page} from '../../timeline/page/stage.js';
import {firstSentence} from './comments.js';
import {beginGallery, beginOpening, showSharing} from './dialogs.js';
import {difference, drawDifference, effectInWords, goToDifference} from './diff.js';
import {edit} from './edits.js';
import {drawFault, showFault} from './errors.js';
import {beginMotes, renewMotes, restoreMotes, sayOnMap} from './motes.js';
import {keepDraft, keepSession} from './keeping.js';
import {attempt, reverting, say, setOutcome} from './outcome.js';
import {Pad} from './pad.js';
import {lineAndColumn, programsOf} from './toml.js';

/** Milliseconds from a key to its run, to words about an error, to the sign of a long run, and to the keeping of the
 * text. */
const PAUSE = 150, CALM = 700, LONG = 500, KEEP = 1000;

const {web} = page;
const react = (name, ...words) => page.reactions[name].forEach(does => does(...words));

/** Says what the text is about, and where it came from; and offers the change of an example that is as it was. */
function sayIntro() {
  const {intro, history, document, saved} = web, example = history.text === saved ? web.example : null;
  setOutcome(example?.about || [intro, firstSentence(history.text)].filter(Boolean).join(' ') ||
    `This is ${document.name}.`, '', example?.replace ? [[example.try, makeTry, 'try']] : []);
}

/** Shows the text; a new one from its first program on. */
function showText(isNew = false) {
  const {text} = web.history, [program] = isNew ? programsOf(text) : [];
  web.pad.show(text, program ? Math.max(0, lineAndColumn(text, program.begin)[0] - 1) : isNew ? 0 : -1);
  nameSteps();
}

function nameSteps() {
  byId('undo').disabled = !web.history.before;
  byId('redo').disabled = !web.history.canRedo;
}

/** Takes a new text of the page, and runs it. */
export function change(text, how) {
  web.history.take(text, how);
  if (how === 'typed') nameSteps(); else showText();
  changed(how === 'typed' ? PAUSE : 0);
}

/** Makes a change that the map asks for, or says why there is none. */
async function changeByMap(wish, how = 'edit') {
  const {text} = web.history, made = await attempt(() => edit(text, wish));
  if (!made) return restoreMotes();
  sayOnMap(made.said);
  if (made.text !== text) change(made.text, how);
}

/** Goes back to an earlier text, or on to a later one, which may be of another document. */
function go(by) {
  if (!web.history.go(by)) return;
  const {of} = web.history.step, isOther = of.document !== web.document;
  Object.assign(web, of, {fresh: isOther});
  showText(isOther);
  changed(0);
  if (isOther) react('opened', web.document, true);
}

/** Changes what is known of the open document, for all of its texts. */
export const setOpened = its => Object.assign(web, Object.assign(web.history.step.of, its));

/** Runs the text after a pause, and keeps it where the reader finds it again; results are those of an earlier text. */
function changed(pause) {
  clearTimeout(web.timer);
  clearTimeout(web.keepTimer);
  web.timer = window.setTimeout(runNow, pause);
  web.keepTimer = window.setTimeout(keepNow, KEEP);
  react('outdated');
}

/** Keeps the text now, if it was to be kept soon. */
function keepNow() {
  if (!web.keepTimer) return;
  clearTimeout(web.keepTimer);
  web.keepTimer = 0;
  keepDraft(web.history.text);
}

/** Opens a text, as a step of the history: that of an example, or one with an `intro`, which says where it came from.
 * `against` is an earlier text: the page shows what has changed since. `saved` is the text that needn't be kept.
 * @param {any} document its name, its text, and where it is */
export async function open(document, {example = /** @type {any} */ (null), intro = '', against = null,
  saved = document.text} = {}) {
  keepNow();
  web.history.take(against ?? document.text, 'opened', {document: {opened: Date.now(), ...document}, example, intro,
    saved});
  await showOpened();
  if (against === null) return;
  change(document.text, 'edit');
  await runNow();
  goToDifference();
}

/** Opens the steps of an earlier visit. */
export function openAgain(session) {
  Object.assign(web.history, session);
  return showOpened(true);
}

async function showOpened(isAgain = false) {
  Object.assign(web, web.history.step.of, {fresh: true});
  showText(true);
  await runNow();
  react('opened', web.document, isAgain);
}

function makeTry() {
  const {history, example, pad} = web, pieces = Object.entries(example.replace);
  const text = pieces.reduce((made, [old, piece]) => made.split(old).join(piece), history.text);
  if (text === history.text) {
    return say('The text no longer has what this would change. Undo, or open the example again.');
  }
  change(text, 'try');
  pad.lightRow(lineAndColumn(text, text.indexOf(pieces[0][1]))[0]);
}

/** Runs the text, and shows its run, its error, or its limit. */
export async function runNow() {
  clearTimeout(web.timer);
  const asked = ++web.asked, {step} = web.history;
  setTimeout(() => { byId('stop').hidden = asked !== web.asked || web.ran === asked; }, LONG);
  const answer = await attempt(() => page.backend.run({...web.document, text: step.text}));
  if (answer?.superseded || asked !== web.asked) return;
  web.ran = asked;
  byId('stop').hidden = true;
  // (while the reader types a word, it isn't called an error yet)
  if (answer?.fault && step.how === 'typed') await new Promise(done => setTimeout(done, step.at + CALM - Date.now()));
  if (asked !== web.asked) return;
  document.body.classList.toggle('stale', !answer?.run);
  if (answer?.run) await showRun(answer, step);
  else if (answer?.fault) attempt(() => showFault(answer.fault, step.text));
  else if (answer) showLimit(answer);
  page.ready = true;
  if (!page.panes.length) byId('about').textContent = 'No run yet';
}

function showLimit({limit}) {
  drawFault();
  say(`${limit} Does a loop repeat without waiting, or is the net too large?`, 'bad', reverting());
}

async function showRun({run, number, took}, step) {
  const {history} = web, {ranBefore: before} = history, found = before && /** @type {any} */ (difference(before.run,
    run));
  drawFault();
  history.keep(step, run);
  web.number = number;
  page.differs = {first: found?.first, parts: new Map(found?.parts)};
  if (page.panes.length) showInstead(page.panes[0], run); else showRuns([run]);
  renewMotes();
  showSums();
  byId('about').textContent = `${count(run.begins.length, 'mote')}, ${count(run.end + 1, 'moment')}` +
    (took === undefined ? '' : `, ${Math.max(1, Math.round(took))} ms`);
  const isChanged = found && before.text !== step.text;
  if (web.fresh) beginShow();
  if (isChanged) {
    setOutcome(effectInWords(run, before.run, found), found.same ? 'same' : 'differs',
      [...found.first ? [['Show', showDifference, 'show']] : [], ...reverting()]);
    // (the button that was pressed is gone now)
    if (document.activeElement === document.body && step.how === 'try') byId('revert').focus();
  } else sayIntro();
  drawAll();
  web.shown = step.text;
  react('ran', step.text, number);
}

function showDifference() {
  stopPlaying();
  goToDifference();
}

/** Shows an opened text from its beginning; a wave runs over the net of an example. */
function beginShow() {
  const {example} = web, isStill = matchMedia('(prefers-reduced-motion: reduce)').matches;
  web.fresh = false;
  whole();
  selectNothing();
  stopPlaying();
  if (!example?.speed) return setNow(0);
  byId('speed').value = example.speed;
  setNow(isStill ? example.still : example.from);
  if (!isStill) startPlaying();
}

function beginButtons() {
  onClick({
    undo: () => go(-1), redo: () => go(1), stop: () => page.backend.stop(),
    share: () => showSharing(web.history.text, web.document.name),
    help: () => byId('reference').showModal(),
    'fault-place': () => web.pad.select(...web.fault.place),
    'fault-correct': () => change(web.fault.corrected, 'edit'),
  });
  document.addEventListener('keydown', event => {
    if (!(event.ctrlKey || event.metaKey) || event.altKey || document.querySelector('dialog[open]')) return;
    // (in a field, these keys are about the field)
    const target = /** @type {HTMLElement} */ (event.target);
    if (target.matches('input, textarea') && target !== web.pad.area) return;
    const key = event.key.toLowerCase(), by = key === 'z' && !event.shiftKey ? -1 : key === 'y' || key === 'z' ? 1 : 0;
    if (!by) return;
    event.preventDefault();
    event.stopPropagation();
    go(by);
  }, true);
}

/** Begins the page with its examples, of which some have cards, the words of the notation and the rules of
 * corrections. Returns the examples, those with a card first. */
export function begin(backend, {cards, texts, words, corrections: {keys}}) {
  const others = Object.keys(texts).filter(file => !cards.some(it => it.file === file)).map(file => ({file}));
  const examples = [...cards, ...others].map(it => ({...it, text: texts[it.file]}));
  readColours();
  page.backend = Object.assign(backend, {words});
  page.goToLine = line => web.pad.select(line - 1, 0, (web.history.text.split('\n')[line - 1] || '').length);
  web.pad = new Pad(text => change(text, 'typed'), {...words, keys});
  beginButtons();
  page.overlays.push(drawDifference);
  page.edit = changeByMap;
  beginMotes();
  beginGallery(examples, openExample, draft =>
    open({where: '', ...draft}, {intro: 'This is a text of yours.', saved: ''}));
  beginOpening((text, name) => open({where: '', name, text}, {intro: `This is ${name}.`}), words => say(words, 'bad'));
  beginDrawer();
  const address = location.href;
  window.addEventListener('pagehide', () => {
    keepNow();
    keepSession(web.history, address);
  });
  return examples;
}

export const openExample = it =>
  open({where: 'example', name: `${it.file}.toml`, text: it.text}, {example: it});
