// The colours of a scenario's rows: tables by their own rules, programs by those of the notation. A statement has the
// colour of its marks on the lanes.

/** @type {[RegExp, string|null][]} */
const TABLE_TOKENS = [
  [/\s+/y, null], [/#.*/y, 'comment'], [/\[\[?[A-Za-z0-9_.\s"-]+\]\]?(?=\s*(#|$))/y, 'header'],
  [/([A-Za-z0-9_-]+|"([^"\\]|\\.)*")(?=\s*[.=])/y, 'property'], [/"([^"\\]|\\.)*"?|'[^']*'?/y, 'string'],
  [/(true|false)\b/y, 'atom'], [/[+-]?[0-9][0-9_.eE+-]*/y, 'number'], [/./y, null],
];
const OPENING = /"""|'''|["'](?=\s*(event|semaphore|process)\b)/y;
const PROGRAM_TOKEN = /\s+|\/\/.*|[A-Za-z0-9_]+|./y;

/** The text of a pattern at a place of a row, or ''. */
function found(pattern, row, at) {
  pattern.lastIndex = at;
  return (pattern.exec(row) || [''])[0];
}

/** The state before a row: the quote of the program that is open, and the word before.
 * @typedef {{quote: string, before: string}} State */

/** The state before the first row, in the text of a program with a quote or in a table. @returns {State} */
export const firstState = (quote = '') => ({quote, before: ''});

/** A function that returns the pieces of a row with their colours, and makes the state that after the row. `colours`
 * has the words of each colour, `naming` those in front of a name. */
export function rowTokens({colours, naming}) {
  const colourOf = new Map(Object.entries(colours).flatMap(([colour, words]) => words.map(word => [word, colour])));

  const colourIn = (text, before) => {
    if (!text.trim()) return null;
    if (text.startsWith('//')) return 'comment';
    if (/^[0-9]/.test(text)) return /^(0|[1-9][0-9]*)$/.test(text) ? 'number' : 'error';
    if (!/^\w/.test(text)) return colourOf.get(text) || 'error';
    if (naming.includes(before)) return 'def';
    return colourOf.get(text) || (/[A-Z]/.test(text) ? 'error' : 'variable');
  };

  /** @returns {[string, string|null]} */
  const ofProgram = (row, at, state) => {
    const {quote, before} = state;
    if (row.startsWith(quote, at)) {
      state.quote = '';
      return [quote, 'string'];
    }
    let text = found(PROGRAM_TOKEN, row, at);
    // (a program on one line of TOML ends with its quote)
    if (quote.length === 1 && text.startsWith('//')) text = text.split(quote)[0];
    if (text.trim()) state.before = text;
    return [text, colourIn(text, before)];
  };

  /** @returns {[string, string|null]} */
  const ofTable = (row, at, state) => {
    const quote = found(OPENING, row, at);
    if (quote) Object.assign(state, firstState(quote));
    const [pattern, colour] = quote ? [OPENING, 'string'] : TABLE_TOKENS.find(([it]) => found(it, row, at));
    return [found(pattern, row, at), colour];
  };

  return (row, state) => {
    const pieces = [];
    for (let at = 0; at < row.length; at += pieces[pieces.length - 1][0].length) {
      pieces.push((state.quote ? ofProgram : ofTable)(row, at, state));
    }
    return pieces;
  };
}
