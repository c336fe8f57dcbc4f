// What the page asks, answered in the page itself: runs, verdicts and surveys in workers with the module, and all else
// from the columns of runs.
import {Run} from '../../timeline/page/data.js';
import {indexRun} from '../../timeline/page/index.js';
import {FAULT, commentsIn} from './comments.js';
import {faultIn, ofRun} from './errors.js';
import {mend} from './mend.js';
import {readToml} from './toml.js';

/** The milliseconds after which a survey is ended, and the lines of a report after which a worker is. */
const LONGEST_SURVEY = 120000, LONG = 200000;

/** A worker that answers one question at a time. */
class Bench {
  worker = /** @type {Worker|null} */ (null);
  /** Ends the question that goes on, with the worker. */
  end = /** @type {(answer: any) => void} */ (() => {});

  /** @param {string} script the address of the worker's */
  constructor(script) { this.script = script; }

  /** The answer of a module to a text, within so many milliseconds. A question that goes on is ended.
   * @returns {Promise<any>} */
  ask(asked, most) {
    this.end({superseded: true});
    return new Promise(done => {
      const worker = this.worker ||= new Worker(this.script);
      const limit = `This took longer than ${Math.round(most / 1000)} seconds, so it was stopped.`;
      const timer = setTimeout(() => this.end({limit}), most);
      const finish = answer => {
        clearTimeout(timer);
        this.end = () => {};
        done(answer);
      };
      this.end = answer => {
        worker.terminate();
        this.worker = null;
        finish(answer);
      };
      // (a worker that read a long report keeps its memory for a while)
      worker.onmessage = ({data}) => data.columns?.at.length > LONG ? this.end(data) : finish(data);
      worker.onerror = event => this.end({limit: `The run failed in this browser: ${event.message}`});
      worker.postMessage(asked);
    });
  }
}

/** The line of an error, as motesim writes it. @returns {string|undefined} */
const lineOf = ({line}) => line?.replace(/^motecheck: /, 'motesim: ');

/** What the module reads: the words of motecheck, one a row, claims and a scenario. */
const inputOf = (words, text, claims = /** @type {string[]} */ ([])) => [['motecheck', ...words].join('\n'),
  claims.join('\n'), text].join('\0');

/** The words for the faults of a text. */
const faultsOf = text => commentsIn(text, FAULT).map(it => `--fault=${it}`);

/** The parts of a scenario, which motesim takes, for the page of its run. */
export function scenarioOf(text) {
  const {end, medium: {range, base, per, collide}, mote, loss = []} = readToml(text).tables;
  return {end, range, base, per, collide: collide === true, faults: commentsIn(text, FAULT),
    places: mote.map(it => [it.x, it.y]),
    losses: loss.map(it => [it.from, it.to, it.every])};
}

export class Alone {
  number = 0;
  /** The milliseconds after which a run is ended. */
  most = 5000;
  /** The words of the notation. */
  words = /** @type {any} */ (null);

  /** @param {Promise<WebAssembly.Module>} module that of motecheck @param {string} script the worker's
   * @param {any} known the rules that errors break, and those of corrections */
  constructor(module, script, known) {
    this.module = module;
    this.known = known;
    this.script = URL.createObjectURL(new Blob([script], {type: 'text/javascript'}));
    this.front = new Bench(this.script);
    this.back = new Bench(this.script);
  }

  /** Runs a text with its faults; a run that goes on is ended, and so is a survey of an earlier text. */
  async run({text, name}) {
    const number = ++this.number;
    for (const it of [this.front, this.back]) it.end({superseded: true});
    const module = await this.module;
    if (number !== this.number) return {superseded: true};
    const asked = {module, text: inputOf(['--report', ...faultsOf(text)], text), isReport: true};
    const got = await this.front.ask(asked, this.most), line = lineOf(got);
    if (got.superseded || got.limit) return got;
    if (line) return {fault: ofRun(text, line) || await this.faultOf(text, line)};
    const run = new Run({name, ...got.table, ...scenarioOf(text)}, got.columns);
    await indexRun(run);
    return number === this.number ? {run, number, took: got.took} : {superseded: true};
  }

  async faultOf(text, line) { return faultIn(text, line, this.known); }

  /** What motecheck answers to claims about the run of a text; with options, its survey. */
  async check(text, claims, options = []) {
    const {number} = this, module = await this.module;
    if (number !== this.number) return {superseded: true};
    return options.length ? this.back.ask({module, text: inputOf(options, text, claims)}, LONGEST_SURVEY) :
      this.front.ask({module, text: inputOf(faultsOf(text), text, claims)}, this.most);
  }

  /** The fault of a text with a correction, if there is a likely one that motesim accepts; otherwise null. */
  async mend(text, fault) {
    const {number} = this, module = await this.module;
    const found = await mend(text, fault, this.words, this.known.corrections, async other => {
      if (number !== this.number) return undefined;
      const got = await this.front.ask({module, text: inputOf(['--report'], other)}, this.most);
      return got.superseded || got.limit ? undefined : lineOf(got) || null;
    });
    if (!found || number !== this.number) return null;
    const where = found.place[0] === fault.place[0] ? fault.where : `It was noticed in line ${fault.place[0] + 1}.`;
    return {...fault, where, words: [found.words, ...fault.words], place: found.place, corrected: found.text};
  }

  endSurvey() { this.back.end({superseded: true}); }

  stop() {
    this.number++;
    this.front.end({limit: 'You stopped the run.'});
  }
}
