// Texts: places, brackets, numbers with nouns, claims and the difference of two runs in words, and the comments at a head.
import assert from 'node:assert/strict';
import {test} from 'node:test';
import {lineAndColumn, offsetOf} from '../../motesim/web/page/toml.js';
import {PRINT, SEND} from '../../motesim/timeline/page/data.js';
import {headInWords} from '../../motesim/timeline/page/axis.js';
import {count} from '../../motesim/timeline/page/dom.js';
import {wordsOf} from '../../motesim/web/page/claims.js';
import {FAULT, faultsWithoutMote, withComments} from '../../motesim/web/page/comments.js';
import {effectInWords} from '../../motesim/web/page/diff.js';
import {faultOf, short} from '../../motesim/web/page/faults.js';
import {bracketsAt} from '../../motesim/web/page/pad.js';

const TEXT = 'one\ntwo one\n\none';

test('places and offsets belong to each other', () => {
  for (let offset = 0; offset <= TEXT.length; offset++) {
    assert.equal(offsetOf(TEXT, lineAndColumn(TEXT, offset)), offset);
  }
  assert.deepEqual(lineAndColumn(TEXT, 8), [1, 4]);
  assert.equal(offsetOf(TEXT, [9, 9]), TEXT.length);
});

test('numbers have their nouns', () => assert.deepEqual(
  [[0, 'packet'], [1, 'copy'], [2, 'copy'], [1234, 'line']].map(it => count(...it)),
  ['0 packets', '1 copy', '2 copies', '1,234 lines']));

test('the head of an island has its packets and silences', () => assert.deepEqual(
  [[12, 0, false], [1, 0, true], [0, 1, true], [2, 1234, true]].map(it => headInWords(...it)),
  ['12 packets sent', '1 packet sent, 0 silences', '0 packets sent, 1 silence', '2 packets sent, 1,234 silences']));

test('the effect of a change is one sentence', () => {
  const run = (...kind) => ({kind, rows: kind.length, prints: []}), of = (found, ours, others) =>
    effectInWords(ours || run(SEND), others || run(SEND, SEND), {same: false, first: null, ...found});
  assert.equal(of({same: true}), 'This change has no effect: the report is the same.');
  assert.equal(of({}), 'The motes run other programs, and write the same lines.');
  const first = {at: 30, mote: 2, inMedium: false};
  assert.equal(of({first}), '1 packet instead of 2. First different at moment 30, at mote 2.');
  assert.equal(of({first: {...first, inMedium: true}}, run(SEND, PRINT)),
    '1 packet instead of 2. First different at moment 30, in the packets.');
  assert.equal(of({first}, run(SEND, SEND)), 'As many packets and prints as before. First different at moment 30, ' +
    'at mote 2.');
});

test('a bracket has its partner', () => {
  const text = 'a { (b) [c] }';
  assert.deepEqual([2, 3, 5, 7, 13, 1].map(caret => bracketsAt(text, caret)), [[2, 12], [2, 12], [4, 6], [6, 4], [12, 2], []]);
  assert.deepEqual(bracketsAt('(', 0), []);
});

test('a process has its name in the words of a claim, also where programs have different processes', () => {
  const text = "[programs]\na = 'process ping, pong; code ping {}'\nb = 'process pong; code pong {}'\n";
  const run = {begins: [0, 1], programs: ['a', 'b']}, words = (motes, process) =>
    wordsOf(`${motes}: the lines "print process ${process}" have in order of time exactly the values 1, 2`, run, text);
  assert.equal(words('mote 0', 1), 'mote 0 prints just pong 1, 2');
  assert.equal(words('mote 1', 0), 'mote 1 prints just pong 1, 2');
  assert.equal(words('each of motes 0 to 1', 0), 'every mote prints just ping or pong 1, 2');
});

test('a fault has few words', () => assert.deepEqual(
  ['link 1 to 2 is broken', 'mote 3 is silent', 'packet 4 of mote 0 is lost', 'packet 4 of mote 0 is 2 late on the way to mote 5',
    'mote 4 is off from 40 to 80', 'mote 4 restarts at 40'].map(it => short(faultOf(it))),
  ['link 1 to 2', 'mote 3', 'packet 4 of mote 0', 'packet 4 of mote 0 is 2 late on the way to mote 5',
    'mote 4 is off from 40 to 80', 'mote 4 restarts at 40']));

test('comments at the head of a text are changed in their place, and lose a mote', () => {
  const text = '# A net.\n# fault: mote 1 is silent\n# fault: link 2 to 3 is broken\n\nend = 9\n';
  assert.equal(withComments(text, FAULT, () => []), '# A net.\n\nend = 9\n');
  assert.equal(withComments('# A net.\n\nend = 9\n', FAULT, its => [...its, 'mote 1 is silent']),
    '# A net.\n# fault: mote 1 is silent\n\nend = 9\n');
  assert.equal(faultsWithoutMote(text, 1), '# A net.\n# fault: link 1 to 2 is broken\n\nend = 9\n');
});
