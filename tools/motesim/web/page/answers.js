// Answers of motecheck, whose lines each have one fact.
import {faultOf} from './faults.js';

/** A verdict on a claim: because of what it is broken in a run, or the sets of faults that break it.
 * @typedef {{claim: string, verdict: string, because?: any, sets?: import('./faults.js').Fault[][]}} Verdict */

const breakIn = text => {
  const line = /; line (\d+) of mote (\d+), at (\d+)/.exec(text)?.slice(1).map(Number),
    mote = /for mote (\d+):/.exec(text);
  const span = /(?:from \d+ to|at) (\d+)/.exec(text.replace(/; line .*/, ''));
  return {text, line: line ? {line: line[0], mote: line[1], at: line[2]} : null, mote: mote && Number(mote[1]),
    to: span && Number(span[1])};
};

/** What motecheck answers: verdicts, faults that no copy has; and of a survey what was covered. */
export function answerIn(text) {
  const claims = /** @type {Verdict[]} */ ([]);
  for (const row of text.split('\n')) {
    const [, word, claim, why = ''] = /^(holds|broken)(?: by \d+)?: (.*?)(?: -- (.*))?$/.exec(row) || [],
      [, set] = /^ {2}if (.*)$/.exec(row) || [];
    if (word) claims.push({claim, verdict: word, sets: [], ...why ? {because: breakIn(why)} : {}});
    else if (set) claims[claims.length - 1].sets?.push(set.split(' and ').map(faultOf));
  }
  const [, covered = '', before, runs] = /^covered: (.*?)( before the limit)?; runs: (\d+)$/m.exec(text) || [];
  return {claims, unused: [...text.matchAll(/^unused: (.*)$/gm)].map(it => faultOf(it[1])), covered,
    runs: Number(runs), is_whole: !before};
}
