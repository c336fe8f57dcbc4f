// The meter: which faults break what must hold. Single faults are tried after each run, and pairs when they are asked
// for, in the run without its own faults. And what the checks say of all this, in one sentence.
import {byId, count, digits, element, makeButton, onClick} from '../../timeline/page/dom.js';
import {redraw} from '../../timeline/page/draw.js';
import {page} from '../../timeline/page/stage.js';
import {answerIn} from './answers.js';
import {FAULT, withComments} from './comments.js';
import {KINDS, faultsNow, kindsIn, namesInWords, setFaults, short, withKinds} from './faults.js';
import {sayOutcome} from './outcome.js';
import {change} from './web.js';

const {web, checks} = page;
/** The kinds of faults that are tried if the text names none, the last of them only in runs with few copies. */
const USUAL = KINDS.slice(0, 3).map(([, name]) => name), MOST_COPIES = 4000;
/** The milliseconds that single faults may need to be tried without being asked for; and the sets that are shown. */
const AT_ONCE = 20000, MOST_SETS = 60;
/** The lines of a report that a run writes in a millisecond, or more. */
const LINES = 1000;
const NOTE = 'The module in this page decides this. What is proved is about the native motecheck.';

const isBroken = ({verdict}) => verdict !== 'holds', isWrong = it => it.verdicts.some(isBroken),
  isRefused = it => it.verdicts.some(({verdict}) => verdict === 'refused');

/** The expectations that can be decided, and their claims: these are tried with faults. */
const decided = () => checks.items.filter(it => !isRefused(it)), claimsNow = () => decided().flatMap(it => it.claims);

/** The broken verdicts, each with its expectation. */
export const brokenNow = () => checks.items.flatMap(it => it.verdicts.filter(isBroken).map(verdict => ({it, verdict})));

const kindsNow = () => kindsIn(web.history.text) || USUAL.slice(0, page.panes[0].run.copies > MOST_COPIES ? 2 : 3);

/** The text without the faults of its run, which is the one that is surveyed. */
const bare = text => withComments(text, FAULT, () => []);

/** How many sets of at most so many faults of the kinds that are tried there may be. */
function setsOf(most) {
  const {run} = page.panes[0], sizes = {links: run.hearers.reduce((sum, it) => sum + it.length, 0),
    'silent motes': run.begins.length, 'lost copies': run.copies, 'late copies': 2 * run.copies,
    restarts: 3 * run.begins.length, 'motes that fail': 3 * run.begins.length};
  const faults = kindsNow().reduce((sum, name) => sum + sizes[name], 0);
  return most === 1 ? faults : faults * (faults + 1) / 2;
}

/** The milliseconds that sets of so many faults probably need. */
const estimate = most => setsOf(most) * (checks.survey ? checks.survey.took / checks.survey.runs :
  0.2 + page.panes[0].run.rows / LINES);

const canSurvey = () => claimsNow().length > 0 && !decided().some(isWrong) && !faultsNow().length && setsOf(1) > 0;

/** The sets of faults that break what must also hold with faults, each with the claims that it breaks. */
export function breaking(survey) {
  const found = /** @type {Record<string, any>} */ ({});
  const counted = checks.items.filter(it => !checks.without.has(it.words)).flatMap(it => it.claims);
  for (const {claim, sets} of survey?.claims.filter(it => counted.includes(it.claim)) || []) {
    for (const faults of sets) {
      const key = faults.map(short).join(' + ');
      (found[key] ||= {key, faults, claims: []}).claims.push(claim);
    }
  }
  return Object.values(found);
}

/** What most single faults break: it says how a run goes, and not what it is for, so it isn't counted. All counts in an
 * exercise, or if nothing else is left. */
function pinsIn({claims}) {
  const pins = checks.items.filter(it => 2 * claims.reduce((sum, {claim, sets}) =>
    sum + (it.claims.includes(claim) ? sets.length : 0), 0) > setsOf(1));
  return new Set(kindsIn(checks.text) || pins.length === decided().length ? [] : pins.map(it => it.words));
}

const forget = () => Object.assign(checks, {survey: null, pairs: null, weak: [], without: new Set()});

/** Forgets the faults that break other claims than those of now. */
export function forgetOthers() {
  const known = checks.survey?.claims.map(it => it.claim) || [];
  if (!claimsNow().every(it => known.includes(it))) forget();
}

/** Tries single faults, unless this is known already or needs long. */
export async function measure() {
  showMeter();
  if (!checks.survey && canSurvey() && estimate(1) < AT_ONCE) await survey(1);
}

async function survey(most) {
  const {number} = web, begin = performance.now(), kinds = kindsNow();
  byId('survey-progress').hidden = false;
  byId('try-single').hidden = byId('try-pairs').hidden = true;
  const seconds = count(Math.ceil(estimate(most) / 1000), 'second');
  byId('tried').textContent = `Up to ${digits(setsOf(most) + 1)} runs, about ${seconds} …`;
  const [{run}] = page.panes, options = KINDS.filter(([, name]) => kinds.includes(name)).map(([,, its]) => its(run));
  const got = await page.backend.check(bare(web.history.text), claimsNow(),
    [...options, `--at-most=${most}`, `--runs=${2 ** 32}`]);
  if (number !== web.number || got.superseded) return;
  byId('survey-progress').hidden = true;
  if (got.answer === undefined) return void (byId('tried').textContent = got.limit || got.line);
  const found = {...answerIn(got.answer), most, kinds, took: performance.now() - begin};
  Object.assign(checks, most === 1 ? {survey: found, without: pinsIn(found)} : {pairs: found});
  checks.weak = breaking(checks.survey).flatMap(({faults}) => faults);
  page.reactions.surveyed.forEach(does => does());
  showMeter();
  sayVerdict();
  redraw();
}

function surveyInWords(survey) {
  const {covered, runs, is_whole, took, most} = survey, {length} = breaking(survey);
  const out = checks.items.filter(isRefused).length, left = out ? ` Left out: ${count(out, 'expectation')}.` : '';
  const found = length ? `${digits(length)} break${length > 1 ? '' : 's'} it` : is_whole ? 'None breaks it' :
    'Not broken so far';
  const what = !is_whole ? covered : `each ${most === 1 ? 'single fault of these kinds' :
    'fault of these kinds and each pair'}`;
  return `Covered: ${what}, by ${count(runs, 'run')} in ${digits(Math.max(1, Math.round(took)))} ms. ${found}.${left}`;
}

/** Shows what is known of faults, and the buttons to try others. */
function showMeter() {
  const {survey: singles, pairs} = checks, found = pairs || singles, can = canSurvey(), own = faultsNow();
  const sets = breaking(found), more = sets.length - MOST_SETS;
  for (const box of byId('kinds').querySelectorAll('input')) box.checked = kindsNow().includes(box.value);
  byId('survey-progress').hidden = true;
  byId('try-single').hidden = !can || Boolean(singles);
  byId('try-pairs').hidden = !can || !singles || Boolean(pairs);
  byId('tried').textContent = found ? surveyInWords(found) : can ? '' : !checks.items.length ?
    'Say what must hold; then faults are tried.' : own.length ? 'Other faults are tried in the run without faults.' :
    kindsNow().length ? 'Faults are tried when everything holds without them.' : 'Tick a kind of fault to try.';
  byId('breaking').replaceChildren(...sets.slice(0, MOST_SETS).map(({key, faults, claims}) =>
    makeButton(`✗ ${key}`, () => take(faults.map(it => it.text)), {title: `It breaks: ${claims.join('\n')}`,
      'aria-pressed': String(faults.every(it => own.includes(it.text)))})),
  more > 0 ? ` and ${digits(more)} more` : '');
  byId('checks-note').textContent = checks.items.length ? NOTE : '';
}

/** Makes faults those of the run, in place of others; or takes them away again. */
function take(faults) {
  checks.follows = !faults.every(it => faultsNow().includes(it));
  setFaults(checks.follows ? faults : []);
}

function verdictInWords() {
  const {items, survey: found, text} = checks, isExercise = kindsIn(text) !== null, own = faultsNow().length;
  const [wrong, ...others] = items.filter(isWrong), held = items.length === 1 ? items[0].words :
    `all ${items.length} expectations hold`;
  const refused = items.find(isRefused);
  if (!items.length) return '';
  if (refused) return `not decided: ${refused.words}. Its words can't be read: see Checks.`;
  if (wrong) return `broken: ${wrong.words}${others.length ? `, and ${others.length} more of ${items.length}` : ''}.`;
  if (own) return `${held}, also with ${own > 1 ? 'these faults' : 'this fault'}.`;
  if (!found) return `${held}${isExercise ? ', without faults' : ''}.`;
  const sets = breaking(found), exercise = isExercise ? sets.length || !found.is_whole ? 'not yet: ' : 'right: ' : '';
  return `${exercise}${held}, ${sets.length ? `but ${namesInWords(sets.map(it => it.faults[0]))} alone can break it` :
    found.is_whole ? `also with any single fault (${found.kinds.join(', ')})` :
      'and no single fault broke it so far'}.`;
}

/** Says what the checks say, above the run and in the tab. */
export function sayVerdict() {
  const {items, survey, pairs} = checks, wrong = items.filter(isWrong).length, {length} = breaking(pairs || survey);
  const breaks = length ? ` · ${count(length, 'fault')} break${length > 1 ? '' : 's'} it` : '';
  checks.words = verdictInWords().replace(/^[a-z]/, it => it.toUpperCase());
  checks.is = !items.length ? '' : wrong ? 'broken' : length ? 'weak' : 'holds';
  label(items.length ? `Checks ${items.length - wrong}/${items.length}${breaks}` : 'Checks',
    !items.length ? '' : wrong || length ? 'bad' : 'good');
  sayOutcome();
}

const label = (textContent, className = '') => Object.assign(byId('tab-checks'), {textContent, className});

export function beginMeter() {
  const ticked = () => [...byId('kinds').querySelectorAll('input:checked')].map(it => it.value);
  const onchange = () => change(withKinds(web.history.text, ticked()), 'edit');
  byId('kinds').append(...KINDS.map(([, value]) =>
    element('label', '', [element('input', '', [], {type: 'checkbox', value, onchange}), ` ${value}`])));
  onClick({'try-single': () => survey(1), 'try-pairs': () => survey(2)});
  page.reactions.outdated.push(() => {
    page.backend.endSurvey();
    label('Checks');
    if (bare(web.history.text) !== bare(checks.text)) forget();
    byId('survey-progress').hidden = true;
  });
}
