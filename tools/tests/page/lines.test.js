// Searches, and the chronological order.
import assert from 'node:assert/strict';
import {test} from 'node:test';
import {findLines, orderOf} from '../../motesim/timeline/page/log.js';
import {names, runOf} from './data.js';

test('all words of a search fit a line', async () => {
  const run = await runOf('small_network'), found = words => findLines(run, words)[0];
  for (const [words, number] of [['print', 2], ['print echo', 1], ['30', 7], ['mote 2', 9], ['from 2 collide', 1],
    ['timer', 6], ['lost', 1], ['at 4..8 sends', 2], ['Prints', 2], ['all', 0], ['', run.count]]) {
    assert.equal(found(words).length, number, words);
  }
  assert.deepEqual(Array.from(found('send 10'), i => run.text(i)), ['0 send 0 10']);
  assert.deepEqual(findLines(run, 'print nonsense'), [null, 'nonsense']);
});

for (const name of names) {
  test(`${name}: the chronological order is by moment, then by mote`, async () => {
    const run = await runOf(name), order = orderOf(run), key = line => run.at[line] * 1e6 + run.moteOf(line);
    assert.equal(new Set(order).size, run.count);
    order.forEach((line, place) =>
      assert.ok(!place || key(order[place - 1]) < key(line) || order[place - 1] < line));
  });
}
