// An error in the text: its place, the words about it, and its correction.
import {byId} from '../../timeline/page/dom.js';
import {page} from '../../timeline/page/stage.js';
import {FAULT, commentsIn, withComments} from './comments.js';
import {reverting, say} from './outcome.js';
import {NoToml, lineAndColumn, programsOf, readToml} from './toml.js';

const {web} = page;
/** The lines of motesim about an error in a program: its name, the number of the rule, and the line; and in tables. */
export const OF_PROGRAM = /^motesim: program (\S+) fault (\d+) line (\d+)$/;
const OF_TABLES = /^motesim: (?:scenario fault (\d+)|(medium) fault \d+)$/;

/** Two offsets in a row of a text, as a place. @returns {[number, number, number]} */
function stretchOf(text, [from, to]) {
  const [row, column] = lineAndColumn(text, from);
  return [row, column, Math.max(column + 1, column + to - from)];
}

/** The place at which a text isn't TOML any more; null if it is. */
export function placeOfNoToml(text) {
  try {
    readToml(text);
    return null;
  } catch (fault) {
    if (!(fault instanceof NoToml)) throw fault;
    return stretchOf(text, [fault.at, fault.at]);
  }
}

/** What is wrong with a key or a value of a table, by the number of the rule or that of the medium: it is unknown (3),
 * of another kind (4) or size (5), no program (6), or a delay, a loss or a mote that can't be.
 * @type {Record<string, (it: any, tables: any) => boolean>} */
const WRONG = {
  2: ({its, key}) => !its.may.includes(key),
  3: ({its, key}) => !its.may.includes(key),
  4: ({its, key, value}) => its.numbers[key] && typeof value !== 'number',
  5: ({its, key, value}) => its.numbers[key] && !(its.numbers[key][0] <= value && value <= its.numbers[key][1]),
  6: ({key, value}, {programs = {}}) => key === 'program' && !Object.hasOwn(programs, value),
  medium: ({key, value}, {mote}) => ['base', 'per', 'every'].includes(key) && value === 0 ||
    ['from', 'to'].includes(key) && value >= mote.length,
};

/** The tables of a text, each with its path and the keys that it may have. */
const tablesIn = ({tables}, keys) => Object.keys(keys).flatMap(name =>
  [name ? tables[name] || [] : tables].flat().map((table, i) =>
    ({its: keys[name], table, path: !name ? [] : Array.isArray(tables[name]) ? [name, i] : [name]})));

/** The first key that a table lacks, and the path of the table. */
const lackIn = all => all.flatMap(({its, table, path}) =>
  its.must.filter(key => !Object.hasOwn(table, key)).map(key => ({key, path})))[0];

/** The place of the first key or value that breaks a rule, or of the first table that lacks a key (2). */
function placeInTables(text, rule, keys) {
  const toml = readToml(text), {tables, place} = toml, all = tablesIn(toml, keys);
  const items = all.flatMap(({its, table, path}) => Object.entries(table).map(([key, value]) =>
    ({its, key, value, at: place(...path, key) || place(...path, key, 0)})));
  const wrong = items.find(it => it.at && WRONG[rule]?.(it, tables)), lack = rule === '2' && lackIn(all);
  const at = wrong ? wrong.at[rule < '4' ? 'key' : 'value'] : lack && place(...lack.path)?.key;
  return at ? stretchOf(text, at) : null;
}

/** The place of an error of motesim in the text, as [row, begin, end] from 0; null if it isn't known. `keys` are those
 * of the tables. @returns {[number, number, number]|null} */
export function placeOfFault(text, line, keys) {
  const [, number, medium] = OF_TABLES.exec(line) || [], rule = number || medium;
  if (rule) return placeOfNoToml(text) || placeInTables(text, rule, keys);
  const [, name, , row] = OF_PROGRAM.exec(line) || [], program = programsOf(text).find(it => it.name === name);
  const at = program ? lineAndColumn(text, program.begin)[0] + Number(row) - 1 : -1, written = text.split('\n')[at];
  if (written === undefined) return null;
  const begin = written.length - written.trimStart().length;
  return [at, begin, Math.max(begin + 1, written.trimEnd().length)];
}

/** An error of a text, which motesim says by a line: with its place, and with the rule that it breaks, of a table of
 * rules. */
export function faultIn(text, line, {rules, corrections}) {
  const place = placeOfFault(text, line, corrections.keys), [, name, rule, row] = OF_PROGRAM.exec(line) || [];
  const where = name && place ? `Line ${place[0] + 1} of the text is line ${row} of program ${name}.` : '';
  const lack = line.endsWith('scenario fault 2') && lackIn(tablesIn(readToml(text), corrections.keys));
  return {line, place, where, words: [lack && `\`${lack.key}\` is missing.`,
    rules[name ? `program ${rule}` : line.replace(/^motesim: /, '')]].filter(Boolean)};
}

/** An error of the faults of a run, with its place and a text without this fault; null if it is another error. */
export function ofRun(text, line) {
  const [, row, column, number] =
    / faults fault line (\d+) column (\d+)| fault (\d+) names a mote or a link/.exec(line) || [];
  const words = commentsIn(text, FAULT)[Number(row || number) - 1];
  if (words === undefined) return null;
  const rows = text.split('\n'), at = rows.findIndex(it => it.startsWith(FAULT) &&
    it.slice(FAULT.length).trim() === words);
  return {line, place: [at, FAULT.length + Number(column || 1) - 1, rows[at].length],
    words: [row ? 'A fault is written as `link 1 to 2 is broken`, `mote 3 is silent` or `packet 3 of mote 2 is lost`.' :
      'The net has no such mote or link: `Correct it` leaves the fault out.'],
    corrected: withComments(text, FAULT, its => its.filter(it => it !== words))};
}

/** Shows an error, and then its correction, if the backend finds one. */
export async function showFault(fault, text) {
  const {asked} = web;
  drawFault(fault);
  const better = fault.corrected ? null : await page.backend.mend(text, fault);
  if (better && asked === web.asked) drawFault(better);
}

/** Marks the place of an error, and shows the words about it; null if there is none. */
export function drawFault(fault = /** @type {any} */ (null)) {
  const {line = '', words = [], where = '', place = null, corrected = null} = web.fault = fault || {};
  byId('fault').hidden = !fault;
  byId('fault').querySelector('pre').textContent = [...words, where, line].filter(Boolean).join('\n');
  byId('fault-place').hidden = !place;
  byId('fault-correct').hidden = !corrected;
  web.pad.mark(place);
  if (fault) say(`The text has an error${place ? ` in line ${place[0] + 1}` : ''}${!page.panes.length ? '' :
    web.fresh ? ': the run that is shown is of the text before' : ': the last run is shown'}.`, 'bad', reverting());
}
