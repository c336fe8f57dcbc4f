// The tab *Checks*: what must hold of the run, decided after each run; and the ways to say it.
import {chooseLine, chooseMote, showCard} from '../../timeline/page/details.js';
import {byId, element, makeButton, onSubmit} from '../../timeline/page/dom.js';
import {redraw} from '../../timeline/page/draw.js';
import {ringAt} from '../../timeline/page/lanes.js';
import {setNow} from '../../timeline/page/play.js';
import {Refused, page} from '../../timeline/page/stage.js';
import {sayWhy} from '../../timeline/page/why.js';
import {answerIn} from './answers.js';
import {claimsOfLine, suggestions, wordsOf} from './claims.js';
import {EXPECT, commentsIn, withComment, withoutComment} from './comments.js';
import {whyMissing} from './diff.js';
import {beginFaults} from './faults.js';
import {beginMeter, brokenNow, forgetOthers, measure, sayVerdict} from './meter.js';
import {attempt} from './outcome.js';
import {change} from './web.js';

const {web, checks} = page;

/** Decides what must hold about the run of a text, and then tries faults. */
async function judge(text, number) {
  // (a run that goes on is of a newer text, and shares the worker)
  const isOld = () => number !== web.number || web.ran !== web.asked, [{run}] = page.panes;
  const others = await page.backend.expectations?.(web.document, text) || [];
  if (isOld()) return;
  const own = commentsIn(text, EXPECT).map(claim => ({words: wordsOf(claim, run, text), claims: [claim], isOwn: true}));
  const items = [...own, ...others], decided = await decide(text, [...new Set(items.flatMap(it => it.claims))]);
  if (!decided || isOld()) return;
  const verdictOf = claim => decided.claims.find(it => it.claim === claim);
  Object.assign(checks, {text, items: items.map(it => ({...it, verdicts: it.claims.map(verdictOf)})),
    unused: decided.unused.map(it => it.text)});
  page.reactions.judged.forEach(does => does());
  redraw();
  if (checks.follows) await follow();
  if (!isOld()) await measure();
}

/** What motecheck answers to claims. One that can't be read is left out, and says where. @returns {Promise<any>} */
async function decide(text, claims) {
  if (!claims.length) return {claims: [], unused: []};
  const got = await page.backend.check(text, claims), refuse = (claim, why, from = -1) => ({claim,
    verdict: 'refused', because: {text: why, from}});
  if (got.superseded) return null;
  const [, row, column] = /claims fault line (\d+) column (\d+)/.exec(got.line || '') || [], at = Number(row) - 1;
  if (row) {
    const others = await decide(text, claims.filter((_, i) => i !== at)), rest = claims[at].slice(Number(column) - 1);
    return others && {...others, claims: [...others.claims, refuse(claims[at],
      `It can't be read from here on: ${rest || 'its end'}`, Number(column) - 1)]};
  }
  if (got.answer !== undefined) return answerIn(got.answer);
  return {claims: claims.map(claim => refuse(claim, got.limit || got.line)), unused: []};
}

function showHeld() {
  const {run} = page.panes[0], made = new Set(checks.items.flatMap(it => it.claims));
  // (what a run with faults does is nothing to expect)
  const all = suggestions(run, checks.text), offers = run.faults.length ? [] : all.filter(claim => !made.has(claim));
  byId('checks').classList.remove('earlier');
  byId('held').replaceChildren(...checks.items.map(itemOf));
  byId('suggested').replaceChildren(offers.length ? 'Suggested: ' : '', ...offers.map(claim =>
    makeButton(`+ ${wordsOf(claim, run, checks.text)}`, () => expect(claim), {title: claim})));
  byId('expect-asked').placeholder = all[0];
}

const small = (name, does, title) => makeButton(name, does, {title, className: 'small'});

/** Takes an expectation out of the text, or out of the studio's file. */
const forget = (words, [claim], isOwn) => isOwn ? change(withoutComment(web.history.text, EXPECT, claim), 'edit') :
  attempt(async () => {
    await page.backend.unexpect(words);
    await judge(web.shown, web.number);
  });

/** Replaces the text by a small one in which the same faults break an expectation of the studio's file. */
const shrink = sentence => attempt(async () => {
  const {text} = web.history, made = await page.backend.ask('shrink', {text, sentence});
  if (text === web.history.text) change(made.text, 'fault');
});

/** What must hold, as a row: a click on what is broken leads to its place. */
function itemOf({words, claims, verdicts, isOwn, remark = ''}) {
  const broken = verdicts.find(it => it.verdict !== 'holds'), isThere = broken?.verdict === 'broken';
  const [is, sign, said] = !verdicts.length ? ['', '?', 'not decided'] : broken ? ['broken', '✗', 'broken'] :
    ['holds', '✓', 'holds'];
  const remarks = [broken?.because?.text, remark,
    checks.without.has(words) && 'Most faults break this, so they aren\'t counted.'];
  return element('li', '', [element('span', sign, [], {className: 'sign', 'aria-label': said}), element('div', '', [
    isThere ? makeButton(words, () => goToBreak(broken, words)) : element('span', words, [],
      {title: claims.join('\n')}),
    small('×', () => forget(words, claims, isOwn), 'Expect this no longer'),
    ...isThere && !isOwn ? [small('Shrink', () => shrink(words),
      'Replace the text by a small scenario in which this is broken in the same way')] : [],
    element('span', remarks.filter(Boolean).join('\n'), [], {className: 'why'})])], {className: is});
}

/** Refuses a claim of the field that can't be read, and marks the place in it. */
async function read(field, claim) {
  const {text, from} = (await decide(web.shown, [claim]))?.claims[0].because || {};
  if (!(from >= 0)) return;
  field.focus();
  field.setSelectionRange(from, field.value.length);
  throw new Refused(text);
}

function expect(claim) { change(withComment(web.history.text, EXPECT, claim), 'edit'); }

/** Shows the line that breaks a claim, or the place of the missing one, and says why. */
async function goToBreak({because: {line, mote, to}}, words) {
  const [pane] = page.panes, {run} = pane, before = web.history.ranBefore?.run;
  if (line) return chooseLine(pane, run.traceStart[line.mote] + line.line - 1, true);
  if (page.askQuestion) return page.askQuestion(words);
  if ((mote ?? -1) < 0) return;
  const why = before && await whyMissing(before, run, mote);
  if (why?.line >= 0) chooseLine(pane, why.line, true); else {
    chooseMote(pane, mote, true);
    setNow(to ?? run.end);
  }
  showCard();
  if (why) sayWhy(why.words);
}

/** Goes to the first break, after a fault became a part of the run. */
async function follow() {
  checks.follows = false;
  const [first] = brokenNow();
  if (first) await goToBreak(first.verdict, first.it.words);
}

/** The buttons that make a line an expectation. */
function expectsOf({run}, line) {
  return claimsOfLine(run, line, web.history.text).map((claim, i) =>
    makeButton(`Expect this of ${i ? 'all motes that have it' : `mote ${run.moteOf(line)}`}`, () => expect(claim),
      {title: claim}));
}

/** Draws a ring at each line that breaks a claim, and at the place of each missing one. */
function drawBreaks(pane) {
  const {run} = pane;
  for (const {verdict: {because: {line, mote, to}}} of pane === page.panes[0] ? brokenNow() : []) {
    if (line) ringAt(pane, line.mote, pane.placeOf(run.traceStart[line.mote] + line.line - 1, line.mote), 'trouble');
    else if (run.begins.length > (mote ?? Infinity))
      ringAt(pane, mote, [pane.x(Math.min(run.end, (to ?? run.end) + 0.5)), pane.laneTop(mote) + pane.lane / 2],
        'trouble');
  }
}

export function beginChecks() {
  page.overlays.push(drawBreaks);
  page.expectsOf = expectsOf;
  onSubmit('expect-form', () => {
    const field = byId('expect-asked'), words = field.value.trim();
    return words && attempt(async () => {
      const claim = page.backend.expect ? await page.backend.expect(words) : words;
      if (claim) await read(field, claim);
      field.value = '';
      if (claim) expect(claim); else await judge(web.shown, web.number);
    });
  });
  page.reactions.ran.push((text, number) => attempt(() => judge(text, number)));
  page.reactions.judged.push(forgetOthers, showHeld, sayVerdict);
  page.reactions.surveyed.push(showHeld);
  page.reactions.outdated.push(() => {
    byId('checks').classList.add('earlier');
    Object.assign(checks, {items: [], words: '', is: '', unused: []});
  });
  beginMeter();
  beginFaults();
}
