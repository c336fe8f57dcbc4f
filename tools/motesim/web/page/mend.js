// Corrections of an error: changes of its row, or of the one before. motesim says which of them leave no error, or get
// past this one. What rows become, and the words, are those of tools/explain.
import {digits} from '../../timeline/page/dom.js';
import {OF_PROGRAM, placeOfNoToml} from './errors.js';
import {namesAt} from './names.js';
import {lineAndColumn, programsOf, tablesOf} from './toml.js';

const MOST = 250, FAR = 2, SIGNS = [';', ')', '(', '{', '}'], SWAPPED = {'=': '==', '==': '='};
const TOKEN = /\w+|[=!<>]=|&&|\|\||[^\s\w]/g;
/** Parentheses, with what is in them; a value; two values with an operator between them; and all parentheses. */
const ENCLOSED = '\\(((?:[^()]|\\([^()]*\\))*)\\)', VALUE = `(?:\\w* ?${ENCLOSED}|\\w+)`;
const PAIR = new RegExp(`(?<!\\w)(?=(${VALUE} *([=!<>]=|&&|\\|\\||[-+*/%<>&|^]) *${VALUE}))`, 'g');
const EACH_ENCLOSED = new RegExp(`(?=(${ENCLOSED}))`, 'g');

/** True if at most so many letters are to be changed, added, left out or swapped to make one word of another.
 * @returns {boolean} */
export function areNear(a, b, most) {
  if (!a || !b) return a.length + b.length <= most;
  if (a[0] === b[0]) return areNear(a.slice(1), b.slice(1), most);
  const isSwap = a[0] === b[1] && a[1] === b[0];
  return most > 0 && [[1, 1], [1, 0], [0, 1], ...isSwap ? [[2, 2]] : []].some(([i, j]) =>
    areNear(a.slice(i), b.slice(j), most - 1));
}

/** A row that may be meant, with the reason, and whether it may be half of a correction.
 * @typedef {{row: string, why: string, isHalf?: boolean}} Meant */

/** The rows with another word, the nearest first. */
function* withWords(row, known, tell) {
  for (const word of new Set(row.replace(/\/\/.*/, '').match(/\b[A-Za-z_]\w*/g))) {
    const most = Math.min(FAR, Math.max(1, Math.floor(word.length / 3)));
    const near = new Set([1, most].flatMap(far => known.filter(it => it !== word && areNear(word, it, far))));
    for (const name of [...near].slice(0, 3))
      yield {row: row.replace(new RegExp(`\\b${word}\\b`, 'g'), name), why: tell('similar', {name}), isHalf: true};
  }
}

/** The rows of a program with another sign, one more or one less; with parentheses, or without them. */
function* withSigns(row, tell) {
  const code = row.replace(/\/\/.*/, ''), put = (from, to, piece) => row.slice(0, from) + piece + row.slice(to);
  const tokens = [...code.matchAll(TOKEN)].map(({0: text, index}) => ({text, from: index, to: index + text.length}));
  for (const {text, from, to} of tokens)
    if (SWAPPED[text]) yield {row: put(from, to, SWAPPED[text]), why: tell('equals')};
  for (const sign of SIGNS) {
    for (const {text: word, from, to} of [...tokens].reverse()) {
      const at = sign === '(' ? from : to;
      yield {row: put(at, at, sign === '{' ? ' {' : sign), why: tell('missing', {sign, word})};
    }
  }
  for (const {text: sign, from, to} of tokens)
    if (!/\w/.test(sign)) yield {row: put(from, to, ''), why: tell('too-many', {sign})};
  for (const {1: pair, 3: sign, index} of code.matchAll(PAIR)) {
    const whole = `(${pair})`;
    yield {row: put(index, index + pair.length, whole), why: tell('two-values', {sign, whole}), isHalf: true};
  }
  for (const {1: whole, 2: inside, index} of code.matchAll(EACH_ENCLOSED)) {
    const blank = inside && /\w/.test(row[index - 1]) ? ' ' : '';
    yield {row: put(index, index + whole.length, blank + inside), why: tell('one-value')};
  }
}

/** The row of a table with a whole number within the range of its key. */
function* withinRange(row, keys) {
  const [, head, key, number] = /^(\s*(\w+)\s*=\s*)([+-]?[\d.]+)/.exec(row) || [];
  const [least, most] = Object.values(keys).map(it => it.numbers[key]).find(Boolean) || [];
  for (const from of least === undefined ? [] : [least, 1]) {
    const value = Math.min(most, Math.max(from, Math.round(Number(number))));
    if (String(value) !== number) yield {row: head + value,
      why: `\`${key}\` is a whole number from ${digits(from)} to ${digits(most)}.`};
  }
}

/** The columns of a row that another one has differently, with the whole words, behind its number.
 * @returns {[number, number, number]} */
function changedPart(place, row, other) {
  let from = 0, behind = 0;
  while (from < row.length && row[from] === other[from]) from++;
  while (behind < row.length - from && row[row.length - 1 - behind] === other[other.length - 1 - behind]) behind++;
  // (if something is only added, the sign before it is marked)
  const end = row.length - behind, first = from < end ? from : Math.max(0, from - 1), last = Math.max(first, end - 1);
  const [head] = /\w*$/.exec(row.slice(0, first + 1)) || [''], [tail] = /^\w*/.exec(row.slice(last)) || [''];
  return [place, first - Math.max(0, head.length - 1), last + Math.max(1, tail.length)];
}

/** A candidate: a whole text, the reason, and the place that is changed.
 * @typedef {{text: string, words: string, place: [number, number, number]}} Candidate */

/** The rows with others in place of some from one on. */
const changed = (rows, at, gone, ...others) => [...rows.slice(0, at), ...others, ...rows.slice(at + gone)];

/** The last row above one for which something is true, or -1. */
const lastAbove = (rows, at, isIt) => rows.slice(0, at).map(isIt).lastIndexOf(true);

/** The likely corrections of an error at a row of a text, the likeliest first. `words` are those of the notation, and
 * `rules` those of tools/explain.
 * @returns {Generator<Candidate>} */
function* near(text, at, words, rules) {
  const rows = text.split('\n'), program = programsOf(text).find(({begin, end}) =>
    at >= lineAndColumn(text, begin)[0] && at <= lineAndColumn(text, end)[0]);
  const tell = (code, facts = {}) => rules.hints[code].replace(/\{(\w+)\}/g, (_, name) => facts[name]);
  const names = namesAt(text, program?.begin ?? 0, {...words, keys: rules.keys});
  const meant = row => /** @type {Meant[]} */ ([...withWords(row, names, tell),
    ...rules[program ? 'programs' : 'tables'].map(([form, other, why]) =>
      ({row: row.replace(new RegExp(form), other), why})),
    ...program ? withSigns(row, tell) : withinRange(row, rules.keys)]);
  const places = [at, lastAbove(rows, at, row => row.trim() !== '')].filter(it => it >= 0);
  const single = places.flatMap(place => meant(rows[place]).map((it, rank) => ({...it, rank, place})));
  const double = single.filter(it => it.isHalf).flatMap(one => meant(one.row).map(it =>
    ({...one, row: it.row, why: `${one.why} ${it.why}`})));
  for (const {row, why, place} of [...single.sort((a, b) => a.rank - b.rank), ...double])
    if (row !== rows[place]) yield {text: changed(rows, place, 1, row).join('\n'), words: why,
      place: changedPart(place, rows[place], row)};
  if (program) yield* moved(rows, at, rules.orders, tell);
}

/** The text with a declaration above the first part that comes behind it.
 * @returns {Generator<Candidate>} */
function* moved(rows, at, orders, tell) {
  const wordOf = row => /^\s*(\w+)/.exec(row)?.[1] || '', word = wordOf(rows[at]);
  const order = orders.find(it => it.includes(word)) || [], later = order.slice(order.indexOf(word) + 1);
  const from = word === 'code' ? 0 : lastAbove(rows, at, row => wordOf(row) === 'code');
  const target = rows.findIndex((row, i) => i >= from && i < at && later.includes(wordOf(row)));
  if (target >= 0) yield {text: changed(changed(rows, at, 1), target, 0, rows[at]).join('\n'),
    words: tell('late-part', {word, whole: orders.indexOf(order) ? 'a code' : 'a program',
      order: order.map(it => `\`${it}\``).join(', ')}), place: [at, 0, rows[at].length]};
}

/** How far motesim gets in a text before an error: further is better. */
function reach(text, line) {
  if (!line) return Infinity;
  const [, name, , row] = OF_PROGRAM.exec(line) || [];
  return name ? 1e6 + Object.keys(tablesOf(text).programs || {}).indexOf(name) * 1e4 + Number(row) :
    placeOfNoToml(text)?.[0] ?? 2e5;
}

/** The first likely correction that leaves no error, or else the first that gets past the error at a place; null if
 * there is none. `lineOf` has motesim's error of a text, if there is one; it stops the search by `undefined`.
 * @returns {Promise<Candidate|null>} */
export async function mend(text, {line, place}, words, rules, lineOf) {
  let tries = 0, best = null;
  for (const it of place ? near(text, place[0], words, rules) : []) {
    const found = ++tries > MOST ? undefined : await lineOf(it.text.replace(/^end = \d+$/m, 'end = 0'));
    if (found === undefined) return tries > MOST ? best : null;
    const far = reach(it.text, found);
    if (far === Infinity) return it;
    if (far > reach(text, line)) best ||= it;
  }
  return best;
}
