// Chains of causes.
import assert from 'node:assert/strict';
import {test} from 'node:test';
import {chainOf, pathOf} from '../../motesim/timeline/page/causes.js';
import {given, readRun, runOf} from './data.js';

test('chains are those of tools/why', async () => {
  for (const {name, row, because} of given.chains) {
    const run = await runOf(name), hops = await chainOf(run, run.atRow(row).line);
    assert.deepEqual(hops.map(hop => `mote ${hop.mote}: ${hop.because}`), because, `row ${row} of ${name}`);
  }
});

test('a dropped event names the process that was not on the process list', async () => {
  const {name, row} = given.chains.find(it => it.name === 'broadcast_walk'), run = await runOf(name);
  const hops = await chainOf(run, run.atRow(row).line);
  assert.equal(hops[0].because, 'event 0 was dropped: b was not on the process list');
});

test('the critical path sums up what a chain waited for', async () => {
  const run = await runOf('small'), hops = await chainOf(run, run.atRow(28).line);
  assert.equal(pathOf(hops), 'Critical path: 7 moments: 4 waiting for timers; 3 on the way, over 1 hop.');
});

test('a chain without causes ends at the timer that began the wave', async () => {
  const run = await readRun(given.runs.flooding), line = run.prints[24][0], hops = await chainOf(run, line);
  assert.equal(hops[0].words, 'print flood 1');
  const last = hops[hops.length - 1];
  assert.deepEqual([last.mote, last.at, last.because], [0, 40, 'a timer had come to its end']);
  assert.equal(hops.filter(hop => hop.wait === 'medium').length, 8);
});
