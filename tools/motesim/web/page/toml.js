// A scenario's text as TOML: its values, and the places of its keys, values, tables and programs.

/** The text isn't TOML, from an offset on. */
export class NoToml extends Error {
  constructor(at) {
    super();
    this.at = at;
  }
}

const NUMBER = /^([+-]?(0|[1-9][0-9]*)|0(x[0-9a-fA-F]+|o[0-7]+|b[01]+))$/;
const ESCAPE = /\\(?:u([0-9a-fA-F]{4})|U([0-9a-fA-F]{8})|[ \t]*\r?\n\s*|(.))/g;
const ESCAPES = {b: '\b', t: '\t', n: '\n', f: '\f', r: '\r', '"': '"', '\\': '\\', e: '\x1b'};

const unescaped = text => text.replace(ESCAPE, (all, short, long, sign) =>
  short || long ? String.fromCodePoint(parseInt(short || long, 16)) : sign ? ESCAPES[sign] ?? all : '');

/** Reads a text from front to back. A path has the names and the numbers that lead to an item. */
class Reader {
  at = 0;
  /** The offsets of the header or key of each item, of its value, if it has one, and of its end. */
  places = new Map();
  tables = /** @type {any} */ ({});

  constructor(text) { this.text = text; }

  /** @returns {never} */
  fail() { throw new NoToml(this.at); }

  take(pattern) {
    pattern.lastIndex = this.at;
    const found = pattern.exec(this.text);
    if (found) this.at = pattern.lastIndex;
    return found;
  }

  pass(sign) {
    const isThere = this.text.startsWith(sign, this.at);
    if (isThere) this.at += sign.length;
    return isThere;
  }

  gaps() { this.take(/(?:[ \t\r\n]|#[^\n]*)*/y); }

  note(path, key, value) {
    const place = {key, value, end: this.at};
    this.places.set(JSON.stringify(path), place);
    return place;
  }

  document() {
    let base = [], table = this.tables, opened = this.note([], [0, 0], null);
    for (this.gaps(); this.at < this.text.length; this.gaps()) {
      const from = this.at, sign = this.take(/\[\[?/y)?.[0];
      if (sign) {
        const names = this.key();
        if (!this.pass(']'.repeat(sign.length))) this.fail();
        base = [];
        table = this.inner(this.tables, names, base, sign.length > 1);
        opened = this.note(base, [from, this.at], null);
      } else this.pair(table, base);
      opened.end = this.at;
      if (!this.take(/[ \t]*(?:#[^\n]*)?(?:\r?\n|$)/y)) this.fail();
    }
    return this;
  }

  /** The table of names in another one, which is made if it isn't there: of an array the last one, or at the last name
   * a new one (`isMember`). Lengthens the path. */
  inner(table, names, path, isMember = false) {
    for (const [i, name] of names.entries()) {
      const isNew = isMember && i === names.length - 1;
      if (!Object.hasOwn(table, name)) table[name] = isNew ? [] : {};
      table = table[name];
      path.push(name);
      if (isNew && Array.isArray(table)) table.push({});
      else if (isNew || typeof table !== 'object') this.fail();
      if (!Array.isArray(table)) continue;
      path.push(table.length - 1);
      table = table[table.length - 1];
    }
    return table;
  }

  key() {
    const names = [];
    do {
      this.take(/[ \t]*/y);
      const bare = this.take(/[A-Za-z0-9_-]+/y);
      names.push(bare ? bare[0] : this.string());
      this.take(/[ \t]*/y);
    } while (this.pass('.'));
    return names;
  }

  pair(table, base) {
    const from = this.at, names = this.key(), behind = this.at, path = [...base], last = names.pop();
    if (!this.take(/=[ \t]*/y)) this.fail();
    table = this.inner(table, names, path);
    if (Object.hasOwn(table, last)) this.fail();
    const begin = this.at;
    path.push(last);
    table[last] = this.value(path);
    this.note(path, [from, behind], [begin, this.at]);
  }

  /** @returns {any} */
  value(path) {
    const sign = this.text[this.at];
    if (sign === '"' || sign === "'") return this.string();
    if (sign === '[' || sign === '{') return this.items(sign, path);
    const [word] = this.take(/[A-Za-z0-9_.+:-]+/y) || this.fail();
    if (word === 'true' || word === 'false') return word === 'true';
    const digits = word.replace(/(?<=[0-9a-fA-F])_(?=[0-9a-fA-F])/g, '');
    return NUMBER.test(digits) ? Number(digits) : /^[+-]?[0-9]/.test(digits) ? digits : this.fail();
  }

  /** An array, or a table in braces. */
  items(sign, path) {
    const isArray = sign === '[', found = /** @type {any} */ (isArray ? [] : {}), end = isArray ? ']' : '}';
    this.at++;
    for (this.gaps(); !this.pass(end); this.gaps()) {
      const begin = this.at, inside = [...path, found.length];
      if (!isArray) this.pair(found, path);
      else {
        found.push(this.value(inside));
        this.note(inside, [begin, begin], [begin, this.at]);
      }
      this.gaps();
      if (!this.pass(',') && this.text[this.at] !== end) this.fail();
    }
    return found;
  }

  string() {
    const long = this.take(/'''(?:\r?\n)?([^]*?'{0,2})'''(?!')/y);
    if (long) return long[1];
    const escaped = this.take(/"""(?:\r?\n)?((?:[^"\\]|\\[^]|"(?!""))*"{0,2})"""/y);
    if (escaped) return unescaped(escaped[1]);
    const [, plain, other] = this.take(/'([^'\n]*)'|"((?:[^"\\\n]|\\.)*)"/y) || this.fail();
    return plain ?? unescaped(other);
  }
}

/** A text with its values (`tables`), and the `place` of the item at a path. */
export function readToml(text) {
  const {tables, places} = new Reader(text).document();
  return {tables, place: (...path) => places.get(JSON.stringify(path))};
}

/** The same of a text that may be no TOML, which has no tables. */
function readAny(text) {
  try {
    return readToml(text);
  } catch {
    return {tables: {}, place: () => null};
  }
}

export const tablesOf = text => readAny(text).tables;

/** The programs with their stretches in a text, each between its quotes; none if it isn't TOML. */
export function programsOf(text) {
  const {tables, place} = readAny(text);
  return Object.keys(tables.programs || {}).flatMap(name => {
    const [from, to] = place('programs', name)?.value || [0, 0];
    const [quotes] = /^(?:'''\r?\n?|"""\r?\n?|["'])|^/.exec(text.slice(from, to)) || [''];
    return quotes ? [{name, begin: from + quotes.length, end: to - (quotes.length > 1 ? 3 : 1)}] : [];
  });
}

export function lineAndColumn(text, offset) {
  const before = text.slice(0, offset).split('\n');
  return [before.length - 1, before[before.length - 1].length];
}

/** The offset of a line and a column; at most the length of the text. */
export function offsetOf(text, [line, column]) {
  const before = text.split('\n').slice(0, line);
  return Math.min(before.reduce((sum, row) => sum + row.length + 1, column), text.length);
}
