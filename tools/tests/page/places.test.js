// The geometry of the map.
import assert from 'node:assert/strict';
import {test} from 'node:test';
import {MapLayout, shortened} from '../../motesim/timeline/page/places.js';
import {runOf} from './data.js';

const near = (a, b) => assert.ok(Math.abs(a - b) < 1e-6, `${a} is not ${b}`);

test('wide empty stretches are shortened, and the way back is exact', () => {
  const values = [0, 8, 500, 8, -30], [shown, isShort, back] = shortened(values, 16);
  assert.deepEqual([shown, isShort], [[16, 24, 40, 24, 0], true]);
  values.forEach((value, i) => near(back(shown[i]), value));
  near(back(32), 254);
  near(back(-5), -35);
  near(back(47), 507);
  assert.deepEqual(shortened([0, 8], 16).slice(0, 2), [[0, 8], false]);
});

test('each mote is found at its place, and a link at its middle', async () => {
  const map = new MapLayout(await runOf('small_network'));
  for (const width of [200, 360, 900]) {
    map.fitTo(width, 240);
    for (let m = 0; m < map.run.begins.length; m++) {
      assert.equal(map.moteNear(map.x(m), map.y(m)), m);
      assert.ok(map.x(m) >= 0 && map.x(m) <= map.width && map.y(m) >= 0 && map.y(m) <= map.height);
      assert.deepEqual(map.placeAt(map.x(m), map.y(m)), map.run.places[m]);
    }
    map.run.hearers.forEach((list, s) => list.filter(r => r > s).forEach(r =>
      assert.deepEqual(map.linkNear((map.x(s) + map.x(r)) / 2, (map.y(s) + map.y(r)) / 2), [s, r])));
  }
});

test('zooming keeps the point under the pointer', async () => {
  const map = new MapLayout(await runOf('small_network'));
  map.fitTo(360, 240);
  map.zoomAt(3, 100, 60);
  const [x, y] = map.shownAt(100, 60);
  map.zoomAt(2, 100, 60);
  near(map.shownAt(100, 60)[0], x);
  near(map.shownAt(100, 60)[1], y);
  map.zoomAt(1e-9, 100, 60);
  assert.deepEqual([map.zoom, map.dx, map.dy], [1, 0, 0]);
});

test('without places the motes are on a circle', async () => {
  const run = await runOf('silent'), map = new MapLayout(run);
  assert.equal(run.places, null);
  map.fitTo(300, 240);
  assert.equal(map.moteNear(map.x(1), map.y(1)), 1);
});
