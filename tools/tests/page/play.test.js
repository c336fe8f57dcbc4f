// Playing passes stretches in which nothing happens.
import assert from 'node:assert/strict';
import {test} from 'node:test';
import {pastIdle} from '../../motesim/timeline/page/play.js';
import {page} from '../../motesim/timeline/page/stage.js';

test('an idle stretch is passed, unless a packet is on its way', () => {
  const busy = new Uint8Array(101);
  busy[0] = busy[40] = busy[46] = 1;
  page.panes.push({run: {busy, packetAt: Uint32Array.of(40), longest: 6}});
  page.time.end = 100;
  assert.deepEqual([0.5, 1, 20, 38.5, 40.2, 42, 47, 99].map(now => pastIdle(now, 2)),
    [0.5, 39, 39, 38.5, 40.2, 42, 99, 99]);
  page.panes.pop();
});
