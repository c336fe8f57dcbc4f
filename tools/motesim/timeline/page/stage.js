// The state of a page: one object, of which each module reads and changes its part.

import {History} from './history.js';

/** The answer to a text: a run; an error with its place, [row, begin, end]; a limit that the run reached; or that a
 * newer text was asked for.
 * @typedef {{run?: import('./data.js').Run, number?: number, took?: number, limit?: string, superseded?: boolean,
 *   fault?: {line: string, words: string[], place: number[]|null, corrected?: string|null}}} Answer */
/** What a page asks: a server, or the page itself, which only runs.
 * @typedef {{run: (asked: any) => Promise<Answer>, stop: () => any, ask: (what: string, asked: any) => any,
 *   check: (text: string, claims: string[], options?: string[]) => Promise<any>, endSurvey: () => void,
 *   words?: any, mend?: (text: string, fault: any) => Promise<any>,
 *   expectations: (document: any, text: string) => Promise<any[]>, expect: (words: string) => Promise<string>,
 *   unexpect: (words: string) => Promise<void>}} Backend */

const none = /** @type {any} */ (null), list = () => /** @type {any[]} */ ([]);
const does = () => /** @type {((...its: any[]) => any)[]} */ ([]);

export const page = {
  /** True when the page shows what it was opened for. */
  ready: false,
  /** The parts that the next picture draws: lanes, maps. */
  wanted: new Set(),
  backend: /** @type {Backend} */ (none),
  panes: list(),
  maps: list(),
  /** The stretch in view: the moment at the left edge, the pixels of a moment, and the pixels of the view. */
  time: {begin: 0, scale: 1, end: 0, width: 100},
  /** The moment that the maps show, and the one before it; when the last picture was played. */
  play: {now: 0, before: -1, runs: false, last: 0},
  /** The selection: a mote of a pane (null: nothing), and its line (or -1), or a packet k with a copy (or -1). `times`
   * counts selections. */
  chosen: {pane: none, mote: -1, line: -1, k: -1, copy: -1, times: 0},
  /** The chain of causes that is shown. */
  why: {pane: none, run: none, hops: list()},
  /** The places in the programs' file that texts about the run may name: their words, and the line of the file. */
  places: /** @type {Record<string, number>} */ ({}),
  /** The first difference from another run, and the moment of the first one in each lane. */
  differs: {first: none, parts: new Map()},
  /** The map as a way to change the text: whether the next click or Enter adds a mote, and whether the added one gets
   * selected; the link that is shown, and the mote that is moved. */
  ground: {adding: false, chooses: false, way: none, held: none},
  /** The lines that the log has, in order of time; the place of the first that it lists, and for which selection; and
   * the lines with rings in each pane. */
  logged: {run: none, lines: list(), first: 0, times: -1, rings: list()},
  /** Functions of other modules: they draw over the lanes of a pane, or over a map; or follow the moment and the
   * selection. */
  overlays: does(),
  mapOverlays: does(),
  followers: does(),
  /** What pages do in ways of their own: going to a line of the programs' file, a change of the text, finding a chain
   * of causes, and showing it. */
  goToLine: none,
  edit: none,
  chainOf: none,
  askWhy: none,
  askQuestion: none,
  /** The buttons for a line that may be expected, and those for a fault of what is selected; and what makes a fault a
   * part of the run, or takes it away. */
  expectsOf: none,
  faultsOf: none,
  toggleFault: none,
  /** What must hold, with its verdicts, for which text; the faults that name no copy; what the surveys of single
   * faults and of pairs found, and the faults that alone break something; the sentence about all this; whether the page
   * goes to the next break; and the words of what needn't hold with faults. */
  checks: {items: list(), text: '', unused: list(), survey: none, pairs: none, weak: list(), words: '', is: '',
    follows: false, without: new Set()},
  /** Functions that are called when the results that are shown become those of an earlier text; when a run is shown,
   * its checks are decided, and faults are surveyed; and when a document was opened, or is shown again (`isAgain`). */
  reactions: {outdated: does(), ran: does(), judged: does(), surveyed: does(), opened: does()},
  /** The state that is shown, and the selection whose statement is marked. */
  state: '', marked: 0,
  /** The text. `document` has its name and place, `saved` the text of its file, and `intro` says where it came from;
   * `asked` counts the runs that were asked for, `ran` is the last of them that ended, and `number` the backend's
   * number of the run that is shown; `fresh` is true until the first run of a text. */
  web: {pad: none, history: new History(), document: none, saved: '', shown: '', intro: '', example: none, timer: 0,
    keepTimer: 0, asked: 0, ran: 0, number: 0, fresh: true, fault: none, folder: '',
    outcome: {words: '', is: '', buttons: list(), offers: list()}},
};

/** Something that a backend refuses to do. The message is for the reader. */
export class Refused extends Error {}
