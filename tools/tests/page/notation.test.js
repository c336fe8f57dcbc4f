// The colours of programs, from the table of the notation's words.
import assert from 'node:assert/strict';
import {test} from 'node:test';
import {firstState, rowTokens} from '../../motesim/web/page/tokens.js';
import {given} from './data.js';

/** Pairs of a token and its colour. */
const tokens = (text, quote = "'''") =>
  rowTokens(given.words)(text, firstState(quote)).filter(([, colour]) => colour);

test('each word of the notation has the colour of the table', () => {
  for (const [colour, words] of Object.entries(given.words.colours)) {
    for (const word of words) assert.deepEqual(tokens(word), [[word, colour]]);
  }
});

test('a name is a definition after the words that declare one, else a variable', () => {
  assert.deepEqual(tokens('process flood; code flood { var n = 0; etimer t;').filter(it => it[1] === 'def'),
    [['flood', 'def'], ['flood', 'def'], ['n', 'def'], ['t', 'def']]);
  assert.deepEqual(tokens('n'), [['n', 'variable']]);
});

test('what no program may contain is an error', () => {
  for (const wrong of ['Flood', '007', '0x10', '#', '"', '5a']) assert.equal(tokens(wrong)[0][1], 'error', wrong);
  for (const right of ['0', '10', '==', '{']) assert.notEqual(tokens(right)[0][1], 'error', right);
});

test('a comment ends with its line, or with the program on one line', () => {
  assert.deepEqual(tokens('send 1; // send 2').pop(), ['// send 2', 'comment']);
  assert.deepEqual(tokens('send 1; // send 2" # 3', '"').slice(-3),
    [['// send 2', 'comment'], ['"', 'string'], ['# 3', 'comment']]);
});

test('tables have their own colours, and a row ends in the state of the next one', () => {
  const state = firstState(), of = row => rowTokens(given.words)(row, state).filter(([, colour]) => colour);
  assert.deepEqual(of('[[mote]] # a'), [['[[mote]]', 'header'], ['# a', 'comment']]);
  assert.deepEqual(of('x = -5'), [['x', 'property'], ['-5', 'number']]);
  assert.deepEqual(of("p = '''"), [['p', 'property'], ["'''", 'string']]);
  assert.deepEqual(of('send'), [['send', given.words.colours.send ? 'send' : 'keyword']]);
  assert.deepEqual(of("'''"), [["'''", 'string']]);
  assert.deepEqual(of('on = true'), [['on', 'property'], ['true', 'atom']]);
});
