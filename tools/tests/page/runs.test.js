// Runs, packed by Python or read from a report: they have the rows, fates, totals and differences that the tools find.
import assert from 'node:assert/strict';
import {test} from 'node:test';
import {KINDS, lowerBound} from '../../motesim/timeline/page/data.js';
import {findHearers} from '../../motesim/timeline/page/index.js';
import {sums} from '../../motesim/timeline/page/sums.js';
import {difference} from '../../motesim/web/page/diff.js';
import {readToml} from '../../motesim/web/page/toml.js';
import {given, names, readRun, runOf} from './data.js';

const FATES = {received: [0, 1, 2, 8], overflowed: [3], collided: [4], lost: [5], halted: [6], left: [7]};
const OF_SCENARIO = ['end', 'left', 'programs', 'places', 'range', 'base', 'per', 'losses'];
const rounded = table => table.map(row => row.map(it => typeof it === 'number' ? Math.round(it * 1e4) : it));

for (const name of names) {
  for (const [how, made] of [['packed', runOf], ['read', one => readRun(given.runs[one])]]) {
    test(`${name}, ${how}`, async () => {
      const run = await made(name), {report, outcomes, sums: totals, table, scenario} = given.runs[name], rows = [];
      for (let mote = 0; mote < run.begins.length; mote++) {
        rows.push(`mote ${mote} ${run.programs[run.begins[mote]]}`);
        assert.deepEqual(run.atRow(rows.length), {mote, line: -1});
        for (let i = run.traceStart[mote]; i < run.traceStart[mote + 1]; i++) {
          rows.push(run.text(i));
          assert.equal(run.numberOf(i, mote), rows.length);
          assert.deepEqual(run.atRow(rows.length), {mote, line: i});
        }
      }
      rows.push('medium');
      assert.equal(run.atRow(rows.length), null);
      for (let k = 0; k < run.packets; k++) {
        rows.push(run.packetText(k));
        assert.deepEqual(run.atRow(rows.length), {packet: k});
      }
      rows.push(`left ${run.left}`);
      assert.equal(run.atRow(rows.length), null);
      assert.equal(`${rows.join('\n')}\n`, report);
      assert.equal(run.rows, rows.length);
      assert.equal(run.copyFate.length, outcomes.length);
      outcomes.forEach((what, c) => assert.ok(FATES[what].includes(run.copyFate[c]), `copy ${c}`));
      if (!scenario) return;
      for (const it of OF_SCENARIO) assert.deepEqual(run[it], table[it], it);
      const {motes, links} = sums(run);
      assert.deepEqual([rounded(motes), rounded(links)], [rounded(totals.motes), rounded(totals.links)]);
    });
  }
}

for (const {name, report, scenario, found} of given.differences) {
  test(`the difference of ${name}`, async () => {
    const {same, first, parts} = difference(await runOf(name), await readRun({name, report, scenario}));
    assert.deepEqual({same, first, parts: first ? parts : []}, found);
  });
}

test('the same values of each scenario', () => {
  for (const {text, tables} of given.texts) assert.deepEqual(readToml(text).tables, tables, text);
});

test('motes hear those within the range, and the distance counts', async () => {
  const run = await runOf('small_network');
  const far = (s, r) => Math.hypot(run.places[s][0] - run.places[r][0], run.places[s][1] - run.places[r][1]);
  run.hearers.forEach((list, s) => {
    for (let r = 0; r < run.begins.length; r++) {
      assert.equal(list.includes(r), r !== s && far(s, r) <= run.range, `${s} to ${r}`);
    }
  });
  run.places[0] = [20000, 20000];
  findHearers(run);
  assert.deepEqual(run.hearers[0], []);
});

test('lowerBound finds the first place that is not below', () => {
  const numbers = [1, 3, 3, 7];
  assert.deepEqual([0, 1, 2, 3, 4, 7, 8].map(it => lowerBound(numbers, it)), [0, 0, 1, 1, 3, 3, 4]);
  assert.equal(lowerBound(numbers, 3, 2, 3), 2);
});

test('kinds are those of the report', () => assert.deepEqual(KINDS, given.kinds));
