// The colours of lanes that are too low for forms: each pixel has that of its most notable line.
import assert from 'node:assert/strict';
import {test} from 'node:test';
import {ranksOf} from '../../motesim/timeline/page/overview.js';
import {names, runOf} from './data.js';

for (const name of names) {
  test(`pixels of ${name}: a narrower one has the most notable line of those in a wider one`, async () => {
    const run = await runOf(name);
    for (let mote = 0; mote < Math.min(4, run.begins.length); mote++) {
      const [fine, rough] = [1, 0.25].map(scale => ranksOf(run, mote, scale, 0, 512 * scale));
      rough.forEach((rank, j) => assert.equal(rank, Math.max(...fine.subarray(4 * j, 4 * j + 4))));
      assert.deepEqual(ranksOf(run, mote, 1, 100, 80), fine.subarray(100, 180));
    }
  });
}
