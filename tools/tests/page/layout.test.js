// Where lanes, moments and lines are; and zooming in time.
import assert from 'node:assert/strict';
import {beforeEach, test} from 'node:test';
import {AXIS, Pane} from '../../motesim/timeline/page/layout.js';
import {page} from '../../motesim/timeline/page/stage.js';
import {isWhole, keepTime, leastScale, momentsInWords, niceStep, revealMoment, showTime, zoomTime
  } from '../../motesim/timeline/page/time.js';
import {runOf} from './data.js';

const {time} = page;
let run, layout;

beforeEach(async () => {
  run = await runOf('many');
  layout = Object.assign(new Pane(run), {width: 900, height: 500});
  Object.assign(time, {begin: 0, end: run.end, width: 900 - layout.gutter});
  time.scale = leastScale();
  keepTime();
});

test('fitted lanes are all in view, one below the other', () => {
  layout.fit();
  assert.deepEqual(layout.motesInView, layout.order);
  layout.order.forEach((mote, place) => {
    assert.equal(layout.moteAt(layout.laneTop(mote) + layout.lane / 2), mote);
    if (place) assert.ok(layout.laneTop(mote) > layout.laneTop(layout.order[place - 1]));
    assert.ok(layout.sees(mote));
  });
  assert.equal(layout.moteAt(AXIS + 3), -1);
});

test('the lane under the pointer stays there when lanes get taller', () => {
  layout.fit();
  const y = 300, mote = layout.moteAt(y), share = (y - layout.laneTop(mote)) / layout.lane;
  layout.zoomLanes(5, y);
  assert.equal(layout.moteAt(layout.laneTop(mote) + 1), mote);
  assert.ok(Math.abs(layout.laneTop(mote) - y) < layout.lane * (1 + share));
  const last = layout.order[layout.order.length - 1];
  layout.reveal(last);
  assert.ok(layout.laneTop(last) + layout.lane <= layout.height);
});

test('a line is within its moment and its lane', () => {
  layout.lane = 40;
  showTime(0, 20);
  for (let line = run.traceStart[3]; line < run.traceStart[4]; line++) {
    const x = layout.lineX(line, 3), y = layout.lineY(run.kind[line], 3);
    assert.ok(x > layout.x(run.at[line]) && x < layout.x(run.at[line] + 1));
    assert.ok(y > layout.laneTop(3) && y < layout.laneTop(3) + layout.lane);
  }
  const [from, to] = layout.linesInView(3);
  assert.ok(from === run.traceStart[3] && to <= run.traceStart[4]);
});

test('zooming keeps the moment under the pointer, and the view within the run', () => {
  assert.ok(isWhole());
  zoomTime(3, 200);
  const under = layout.moment(layout.gutter + 200);
  zoomTime(1.7, 200);
  assert.ok(Math.abs(layout.moment(layout.gutter + 200) - under) < 1e-9);
  time.begin = 1e6;
  keepTime();
  assert.ok(time.begin + time.width / time.scale <= run.end + 1 + 1e-9);
  zoomTime(1e-9);
  assert.ok(isWhole());
  assert.equal(momentsInWords(), `Moments 0 to ${run.end} of ${run.end}.`);
});

test('a moment outside of the view is brought into it', () => {
  showTime(0, 10);
  revealMoment(40);
  assert.ok(time.begin <= 40 && time.begin + time.width / time.scale >= 41);
  const {begin} = time;
  revealMoment(41);
  assert.equal(time.begin, begin);
});

test('steps of the axis are 1, 2 or 5 times a power of ten', () =>
  assert.deepEqual([0.2, 1, 1.5, 3, 7, 12, 300, 501].map(niceStep), [1, 1, 2, 5, 10, 20, 500, 1000]));
