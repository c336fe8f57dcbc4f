// Changes of a scenario's text: motes are moved, added and removed, and links lose packets. All else stays in the
// text: comments, order and layout.
import {digits} from '../../timeline/page/dom.js';
import {Refused} from '../../timeline/page/stage.js';
import {faultsWithoutMote} from './comments.js';
import {NoToml, readToml} from './toml.js';

const MOST_PLACE = 30000, MOST_EVERY = 1000000, MOST_MOTES = 1000;

/** Where the row of an offset begins, and where the next one does. */
const rowAt = (text, offset) => text.lastIndexOf('\n', offset - 1) + 1;
const rowBehind = (text, offset) => text.indexOf('\n', offset) + 1 || text.length;

/** True if a row is there and blank. @param {number} offset one in the row */
const isBlank = (text, offset) => offset >= 0 && offset < text.length &&
  !text.slice(rowAt(text, offset), rowBehind(text, offset)).trim();

/** A text with the places of its items, and other texts that changes make of it; its tables of a name are written one
 * by one, or in an array in brackets. */
class Scenario {
  constructor(text) {
    this.text = text;
    this.toml = readToml(text);
  }

  /** @returns {any[]} */
  members(name) { return this.toml.tables[name] || []; }

  valueAt(...path) { return this.toml.place(...path)?.value ?? undefined; }

  /** The scenario with another piece between two offsets. */
  changed(begin, end, piece) { return new Scenario(this.text.slice(0, begin) + piece + this.text.slice(end)); }

  /** The rows of a table, from its header to its last key, as offsets. */
  rows(name, index) {
    const {text, toml: {place}} = this, {key: [header], end} = place(name, index);
    return [rowAt(text, header), rowBehind(text, end)];
  }

  /** @param {[any[], number][]} values those that become others, with their paths */
  set(...values) {
    const places = values.map(([path, value]) => {
      const place = this.valueAt(...path);
      if (!place) throw new Refused(`The text has no ${path.join(' ')} to change.`);
      return {place, value};
    }).sort((a, b) => b.place[0] - a.place[0]);
    return new Scenario(places.reduce((text, {place, value}) => text.slice(0, place[0]) + value + text.slice(place[1]),
      this.text));
  }

  without(name, index) {
    if (this.valueAt(name)) return this.withoutInline(name, index);
    const [begin, end] = this.rows(name, index), areBoth = isBlank(this.text, begin - 1) && isBlank(this.text, end);
    return this.changed(begin, areBoth ? rowBehind(this.text, end) : end, '');
  }

  /** Takes a table out of an array: with what is behind it, or before it if it is the last one. */
  withoutInline(name, index) {
    const [before, it, after] = [-1, 0, 1].map(by => this.valueAt(name, index + by));
    if (after) return this.changed(it[0], after[0], '');
    const [comma] = /^\s*,|/.exec(this.text.slice(it[1]));
    return before ? this.changed(before[1], it[1], '') : this.changed(it[0], it[1] + comma.length, '');
  }

  /** @param {string[]} keys each with its value */
  appended(name, keys) {
    const count = this.members(name).length, {text} = this;
    if (this.valueAt(name)) return this.appendedInline(name, count - 1, `{ ${keys.join(', ')} }`);
    const [first, offset] = count ? this.rows(name, count - 1) : [0, text.length];
    const rows = [...(count && isBlank(text, first - 1) ? [''] : []), `[[${name}]]`, ...keys, ''].join('\n');
    return this.changed(offset, offset, (offset > 0 && text[offset - 1] !== '\n' ? '\n' : '') + rows);
  }

  /** Adds a table to an array, with what is between the two before it. */
  appendedInline(name, last, table) {
    const [, at] = last < 0 ? [0, this.valueAt(name)[0] + 1] : this.valueAt(name, last);
    const between = last > 0 ? this.text.slice(this.valueAt(name, last - 1)[1], this.valueAt(name, last)[0]) : '';
    return this.changed(at, at, (last < 0 ? '' : /^[,\s]+$/.test(between) ? between : ', ') + table);
  }
}

function number(wish, name, least, most) {
  const value = wish[name];
  if (Number.isInteger(value) && value >= least && value <= most) return value;
  throw new Refused(`${name} is a whole number, ${digits(least)} to ${digits(most)}`);
}

const mote = (scenario, wish, name = 'mote') => number(wish, name, 0, scenario.members('mote').length - 1);

const placeOf = wish => ['x', 'y'].map(name => number(wish, name, -MOST_PLACE, MOST_PLACE));

/** What each kind of edit makes of a scenario, and its effect in words.
 * @type {Record<string, (scenario: Scenario, wish: any) => [Scenario, string]>} */
const EDITS = {
  move(scenario, wish) {
    const m = mote(scenario, wish), [x, y] = placeOf(wish);
    return [scenario.set([['mote', m, 'x'], x], [['mote', m, 'y'], y]), `Mote ${m} is at ${x}, ${y}.`];
  },

  /** Moves a mote by so much from the place that it has in the text. */
  shift(scenario, wish) {
    const m = mote(scenario, wish), {x, y} = scenario.members('mote')[m], [dx, dy] = wish.by;
    return EDITS.move(scenario, {mote: m, x: x + dx, y: y + dy});
  },

  add(scenario, wish) {
    const [x, y] = placeOf(wish), {program} = wish, m = scenario.members('mote').length;
    if (!Object.hasOwn(scenario.toml.tables.programs || {}, program))
      throw new Refused(`the scenario has no program ${program}`);
    if (m >= MOST_MOTES) throw new Refused('a scenario has at most 1,000 motes');
    return [scenario.appended('mote', [`x = ${x}`, `y = ${y}`, `program = "${program}"`]),
      `Mote ${m}, which runs ${program}, is at ${x}, ${y}.`];
  },

  remove(scenario, wish) {
    const m = mote(scenario, wish), motes = scenario.members('mote').length, losses = scenario.members('loss');
    if (motes === 1) throw new Refused('a scenario has at least one mote');
    const its = [...losses.keys()].filter(i => losses[i].from === m || losses[i].to === m);
    const others = losses.flatMap((loss, i) => ['from', 'to'].filter(name => loss[name] > m).map(
      name => /** @type {[any[], number]} */ ([['loss', i, name], loss[name] - 1])));
    const made = its.reduceRight((made, i) => made.without('loss', i), scenario.set(...others).without('mote', m));
    const itsLosses = its.length > 1 ? `; so are its ${its.length} losses.` : its.length ? '; so is its loss.' : '.';
    return [new Scenario(faultsWithoutMote(made.text, m)), `Mote ${m} is removed${m < motes - 1 ?
      '; the motes after it are renumbered' : ''}${itsLosses}`];
  },

  lose(scenario, wish) {
    const [from, to] = ['from', 'to'].map(name => mote(scenario, wish, name)), way = `Mote ${from} to mote ${to}`;
    const every = number(wish, 'every', 0, MOST_EVERY);
    if (from === to) throw new Refused('a loss is between two motes');
    const found = scenario.members('loss').findIndex(it => it.from === from && it.to === to);
    if (!every) return [found < 0 ? scenario : scenario.without('loss', found), `${way} loses nothing.`];
    return [found >= 0 ? scenario.set([['loss', found, 'every'], every]) :
      scenario.appended('loss', [`from = ${from}`, `to = ${to}`, `every = ${every}`]),
    `${way} loses ${every === 1 ? 'all packets' : `1 packet in ${every}`}.`];
  },
};

/** The text of a file of expectations with another one. */
export function withSentence(source, sentence) {
  const file = new Scenario(source), words = JSON.stringify(sentence), last = file.members('expect').length - 1;
  return file.valueAt('expect') ? file.appendedInline('expect', last, words).text :
    `expect = [\n  ${words},\n]\n${source}`;
}

/** The text of a file of expectations without one; as it is, if this isn't in its list. */
export function withoutSentence(source, sentence) {
  const file = new Scenario(source), at = file.members('expect').indexOf(sentence);
  return at < 0 ? source : file.withoutInline('expect', at).text;
}

/** The text that an edit makes of another, and its effect in words. */
export function edit(source, wish) {
  try {
    const [{text}, said] = EDITS[wish.what](new Scenario(source), wish);
    return {text, said};
  } catch (fault) {
    if (!(fault instanceof NoToml || fault instanceof TypeError)) throw fault;
    throw new Refused('The text has an error. Correct it first; then the map can change the text.');
  }
}
