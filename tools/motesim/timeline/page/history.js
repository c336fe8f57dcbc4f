// The texts that undo and redo lead to, each with its run.

/** Milliseconds within which what is typed, or moved by keys, belongs to one step; and the bytes of the runs that are
 * kept. */
const PAUSE = 1200, MOST_BYTES = 60e6, JOINED = ['typed', 'moved'];

/** The bytes of the columns of a run, and of its lists of prints. */
const bytesOf = run => Object.values(run).reduce((sum, it) => sum + (it?.byteLength || 0),
  8 * (run.prints || []).reduce((sum, it) => sum + it.length, 0));

/** A step: a text, how it came to be, and what was opened `of` which it is.
 * @typedef {{text: string, run: any, how: string, at: number, of: any}} Step */

export class History {
  /** @type {Step[]} */
  steps = [];
  now = -1;

  get step() { return this.steps[this.now]; }
  get text() { return this.step?.text ?? ''; }

  /** The step to which undo leads, if there is one. */
  get before() { return this.steps[this.now - 1]; }
  get canRedo() { return this.now < this.steps.length - 1; }

  /** The last step before this one that has a run, and is of the same document. */
  get ranBefore() {
    const {of} = this.step;
    return this.steps.slice(0, this.now).reverse().find(it => it.of === of && it.run);
  }

  /** Takes a new text. What is typed, or moved by keys, without a pause is one step. */
  take(text, how, of = this.step?.of) {
    const {step} = this, at = Date.now(), isSame = step && of === step.of;
    if (isSame && text === step.text) return;
    const isLonger = isSame && how === step.how && JOINED.includes(how) && at - step.at < PAUSE;
    this.steps.length = this.now + (isLonger ? 0 : 1);
    this.now = this.steps.push({text, run: null, how, at, of}) - 1;
  }

  /** Keeps the run of a step, and of those around the present one as many as there is room for. */
  keep(step, run) {
    step.run = run;
    const far = step => Math.abs(this.steps.indexOf(step) - this.now);
    let bytes = 0;
    for (const step of this.steps.filter(it => it.run).sort((a, b) => far(a) - far(b))) {
      bytes += bytesOf(step.run);
      if (bytes > MOST_BYTES && step !== this.step) step.run = null;
    }
  }

  /** Goes a step back or on; false if there is none. */
  go(by) {
    if (!this.steps[this.now + by]) return false;
    this.now += by;
    this.step.how = 'again';
    return true;
  }
}
