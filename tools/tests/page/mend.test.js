// Corrections of the mistakes that authors make, tried with the module: how many of those that tools/explain corrects
// into a scenario that runs the page corrects too; and that no correction leads nowhere.
import assert from 'node:assert/strict';
import fs from 'node:fs';
import {createRequire} from 'node:module';
import {test} from 'node:test';
import {areNear, mend} from '../../motesim/web/page/mend.js';
import {placeOfFault} from '../../motesim/web/page/errors.js';
import {given} from './data.js';

const HERE = new URL('..', import.meta.url), WEB = new URL('../../../web/', import.meta.url);
const {runModule} = createRequire(WEB)(new URL('run_module.js', WEB).pathname);
const LEAST = 52;

test('words are near each other', () => assert.deepEqual(
  [['newst', 'newest'], ['form', 'from'], ['print', 'print'], ['send', 'recv'], ['a', 'abcd'], ['range', 'rnag']].map(
    ([a, b]) => [0, 1, 2].findIndex(most => areNear(a, b, most))), [1, 1, 0, -1, -1, 2]));

test('usual mistakes are corrected', async () => {
  const module = new WebAssembly.Module(fs.readFileSync(new URL('motesim.wasm', WEB)));
  const lineOf = text => {
    let line = '';
    runModule(module, new TextEncoder().encode(text), (stream, bytes) => { if (stream === 2) line += new TextDecoder().decode(bytes); });
    return line.trimEnd() || null;
  };
  const rows = fs.readFileSync(new URL('mistakes/mistakes.tsv', HERE), 'utf8').split('\n').map(row => row.split('\t'));
  let corrected = 0;
  for (const [name, file, number, row, , outcome] of rows.filter(its => its.length > 4)) {
    const text = fs.readFileSync(new URL(`mistakes/${file}.toml`, HERE), 'utf8').split('\n');
    text[Number(number) - 1] = row.replace(/\\n/g, '\n');
    const source = text.join('\n'), line = lineOf(source), place = placeOfFault(source, line, given.corrections.keys);
    const found = await mend(source, {line, place}, given.words, given.corrections, async other => lineOf(other));
    if (found) assert.notEqual(lineOf(found.text), line, name);
    if (found && outcome === 'runs' && !lineOf(found.text)) corrected++;
  }
  assert.ok(corrected >= LEAST, `${corrected} are corrected`);
});
