// The text area, in front of a picture of its rows in colours, which marks an error, a statement and a pair of
// brackets.
import {byId, element} from '../../timeline/page/dom.js';
import {numbers} from '../../timeline/page/data.js';
import {Names} from './names.js';
import {lineAndColumn, offsetOf} from './toml.js';
import {firstState, rowTokens} from './tokens.js';

// Pixels above and below the line that the reader types.
const MARGIN = 8;
// Rows above and below those in view that are coloured too.
const MORE = 20;
const PAIRS = {'(': ')', '{': '}', '[': ']'}, CLOSING = Object.values(PAIRS);

/** The offsets of the bracket before or behind a caret and of its partner; none if it has no partner. */
export function bracketsAt(text, caret) {
  const from = [caret - 1, caret].find(at => PAIRS[text[at]] || CLOSING.includes(text[at])) ?? -1;
  const by = PAIRS[text[from]] ? 1 : -1;
  for (let at = from, depth = 0; at >= 0 && at < text.length; at += by) {
    depth += PAIRS[text[at]] ? by : CLOSING.includes(text[at]) ? -by : 0;
    if (!depth) return [from, at];
  }
  return [];
}

export class Pad {
  area = /** @type {HTMLTextAreaElement} */ (byId('text'));
  /** The rows, and the state before each of them, as far as known; no rows after a change. */
  rows = /** @type {string[]|null} */ (null);
  states = [firstState()];
  /** The error that is marked, as [row, begin, end]; and the row of the statement that is marked, or -1. */
  place = /** @type {number[]|null} */ (null);
  row = -1;

  /** `changed` is called with the text after each change by the reader; `words` are those of the notation. */
  constructor(changed, words) {
    const {area} = this;
    this.tokens = rowTokens(words);
    this.names = new Names(this, words);
    area.addEventListener('input', () => {
      this.renew();
      changed(area.value);
    });
    area.addEventListener('scroll', () => this.draw());
    area.addEventListener('keydown', event => this.onKey(event));
    document.addEventListener('selectionchange', () => { if (document.activeElement === area) this.draw(); });
    new ResizeObserver(() => this.draw()).observe(area);
  }

  /** Shows a text. Caret and view stay as near as may be, unless a row is to be the first in view. */
  show(text, first = -1) {
    const {area} = this, {selectionStart, scrollTop} = area, caret = first < 0 ? selectionStart : 0;
    if (text !== area.value) {
      area.value = text;
      area.setSelectionRange(caret, caret);
    }
    area.scrollTop = first < 0 ? scrollTop : first ? first * this.high + MARGIN : 0;
    this.renew();
  }

  /** Reads the rows anew, once before the next picture: a paste may change each of them in turn. */
  renew() {
    Object.assign(this, {rows: null, row: -1});
    requestAnimationFrame(() => this.draw());
  }

  get high() { return parseFloat(getComputedStyle(this.area).lineHeight) || 19.5; }

  draw() {
    const {area, states, high} = this, rows = this.rows ||= this.read(), {scrollTop, scrollLeft} = area, made = [];
    const first = Math.max(0, Math.floor(scrollTop / high) - MORE);
    const end = Math.min(rows.length, Math.ceil((scrollTop + area.clientHeight) / high) + MORE), marks = this.marks();
    for (let row = Math.min(first, states.length - 1); row < end; row++) {
      const state = {...states[row]}, pieces = this.tokens(rows[row], state);
      states[row + 1] = state;
      if (row >= first) made.push(this.rowOf(row, pieces, marks.filter(it => it.place[0] === row)));
    }
    byId('tint').replaceChildren(...made);
    byId('tint').style.transform = `translate(${-scrollLeft}px, ${first * high - scrollTop}px)`;
    byId('numbers').scrollTop = scrollTop;
  }

  read() {
    const rows = this.area.value.split('\n');
    this.states.length = 1;
    byId('numbers').textContent = `${numbers(1, rows.length + 1).join('\n')}\n\n\n`;
    return rows;
  }

  marks() {
    const {area: {value, selectionStart, selectionEnd}, place} = this;
    const brackets = selectionStart === selectionEnd ? bracketsAt(value, selectionStart) : [];
    return [...place ? [{place, name: 'fault-mark'}] : [], ...brackets.map(at => {
      const [row, column] = lineAndColumn(value, at);
      return {place: [row, column, column + 1], name: 'bracket-mark'};
    })];
  }

  rowOf(row, pieces, marks) {
    const isFault = this.place?.[0] === row;
    return element('div', pieces.length ? '' : '\n', [...marks.map(it => this.markOf(it)),
      ...pieces.map(([text, colour]) => colour ? element('span', text, [], {className: `token-${colour}`}) : text)],
    {className: isFault ? 'fault-line' : row === this.row ? 'statement-line' : ''});
  }

  /** A mark: the text of its place once more, which can't be seen, behind the other. */
  markOf({place, name}) {
    const [row, from, to] = place, text = this.rows[row], marked = text.slice(from, Math.max(from + 1, to)) || ' ';
    return element('span', text.slice(0, from), [element('span', marked, [], {className: name})],
      {className: 'marks'});
  }

  /** Marks a place, [row, begin, end], as an error; null for none. */
  mark(place) {
    this.place = place;
    this.draw();
  }

  /** Marks a row as the one that was changed, or the statement that is selected; -1 marks none. */
  lightRow(row) {
    this.row = row;
    this.draw();
    if (row >= 0) this.showRow(row);
  }

  showRow(row) {
    const {area, high} = this, top = parseFloat(getComputedStyle(area).paddingTop) + row * high;
    area.scrollTop = Math.min(Math.max(area.scrollTop, top + high + MARGIN - area.clientHeight), top - MARGIN);
  }

  select(row, from, to) {
    const at = offsetOf(this.area.value, [row, 0]);
    this.area.setSelectionRange(at + from, at + to);
    this.area.focus({preventScroll: true});
    this.showRow(row);
  }

  /** Tab writes two blanks, Enter keeps the indentation, `}` at the beginning of a row takes two blanks off it, and
   * Esc leaves the text. */
  onKey(event) {
    if (event.ctrlKey || event.metaKey || event.altKey) return;
    if (this.names.onKey(event.key)) return event.preventDefault();
    const {area} = this, before = area.value.slice(0, area.selectionStart);
    if (event.key === 'Escape') return area.blur();
    const row = before.slice(before.lastIndexOf('\n') + 1), isClosing = event.key === '}' && /^ {2,}$/.test(row);
    const indent = (/^ */.exec(row) || [''])[0] + (/\{\s*$/.test(row) ? '  ' : '');
    const written = {Tab: event.shiftKey ? '' : '  ', Enter: `\n${indent}`, '}': isClosing ? '}' : ''}[event.key];
    if (!written) return;
    event.preventDefault();
    this.write(written, isClosing ? 2 : 0);
  }

  /** Writes a piece instead of the selection and of some letters before it. */
  write(piece, gone = 0) {
    const {area} = this;
    area.setRangeText(piece, area.selectionStart - gone, area.selectionEnd, 'end');
    area.dispatchEvent(new Event('input'));
  }
}
