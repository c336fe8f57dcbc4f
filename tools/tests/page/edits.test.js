// Changes of a scenario's text by the map and the form: only what they name becomes another.
import assert from 'node:assert/strict';
import {test} from 'node:test';
import {Refused} from '../../motesim/timeline/page/stage.js';
import {edit} from '../../motesim/web/page/edits.js';
import {readToml} from '../../motesim/web/page/toml.js';

const mote = (x, y, more = '') => `[[mote]]\nx = ${x}${more}\ny = ${y}\nprogram = "talk"\n`;
const NET = '# Three motes.\nend = 60\n[programs]\ntalk = \'\'\'\nprocess talker;\n// [[mote]]\n// x = 8\n[[mote]]\nx = 8\n' +
  `'''\n` +
  `${mote(0, 0, '   # the first')}${mote(8, 0)}\n${mote(100, 50)}`;
const LOSSES = `${NET}\n# what is lost\n[[loss]]\nfrom = 0   # the first\nto = 1\nevery = 2\n` +
  '[[loss]]\nfrom = 2\nto = 0\nevery = 3';
const made = (text, what, wish) => edit(text, {what, ...wish}).text;
const tables = (text, what, wish) => readToml(made(text, what, wish)).tables;
const loss = (from, to, every) => ({from, to, every});

test('a moved mote changes two numbers, and no text of a program', () => {
  assert.equal(made(NET, 'move', {mote: 0, x: -5, y: 1000}),
    NET.replace('x = 0   # the first\ny = 0', 'x = -5   # the first\ny = 1000'));
  assert.equal(made(NET, 'move', {mote: 1, x: 9, y: 0}), NET.replace('x = 8\ny = 0', 'x = 9\ny = 0'));
});

test('a mote is moved by so much from its place in the text', () => {
  assert.equal(made(NET, 'shift', {mote: 2, by: [-7, 2]}), made(NET, 'move', {mote: 2, x: 93, y: 52}));
  assert.throws(() => edit(NET, {what: 'shift', mote: 2, by: [30000, 0]}), /whole number/);
});

test('an added mote is behind the others', () => {
  assert.ok(made(LOSSES, 'add', {x: 4, y: -4, program: 'talk'}).includes(
    `${mote(100, 50)}\n${mote(4, -4)}\n# what is lost\n`));
  assert.deepEqual(tables(NET.trimEnd(), 'add', {x: 4, y: -4, program: 'talk'}).mote[3],
    {x: 4, y: -4, program: 'talk'});
});

test('the faults of a run follow the numbers of the motes', () => {
  const faults = ['link 0 to 1 is broken', 'mote 2 is silent', 'packet 3 of mote 2 is 4 late on the way to mote 0'];
  const text = made(faults.map(it => `# fault: ${it}\n`).join('') + NET, 'remove', {mote: 1});
  assert.ok(text.startsWith('# fault: mote 1 is silent\n# fault: packet 3 of mote 1 is 4 late on the way to mote 0\n# Three'));
});

test('a removed mote takes its losses, and renumbers the others; the last one stays', () => {
  const text = made(LOSSES, 'remove', {mote: 1});
  assert.deepEqual(readToml(text).tables.loss, [loss(1, 0, 3)]);
  for (const words of ['# the first', '# what is lost', '# Three motes']) assert.ok(text.includes(words));
  assert.ok(!text.includes('x = 8\ny'));
  let one = NET;
  for (const again of [0, 0]) one = made(one, 'remove', {mote: again});
  assert.throws(() => edit(one, {what: 'remove', mote: 0}), /at least one mote/);
});

test('losses are set, changed and taken away', () => {
  const text = made(NET, 'lose', loss(1, 0, 4));
  assert.ok(text.endsWith('[[loss]]\nfrom = 1\nto = 0\nevery = 4\n'));
  assert.equal(made(text, 'lose', loss(1, 0, 1)), text.replace('= 4', '= 1'));
  assert.equal(made(text, 'lose', loss(1, 0, 0)), NET);
  assert.equal(tables(LOSSES, 'lose', loss(1, 0, 4)).loss.length, 3);
  assert.deepEqual(tables(LOSSES, 'lose', loss(0, 1, 0)).loss, [loss(2, 0, 3)]);
  assert.equal(made(NET, 'lose', loss(0, 1, 0)), NET);
});

for (const between of [', ', ',\n  ', ', # {x = 7, y = 7}\n', ' , ']) {
  test(`motes and losses in brackets, with ${JSON.stringify(between)} between them`, () => {
    const [first, second] = ['{ x = 1, y = -2, program = "p" }', '{"y" = 2,x=3 , program = \'p\'}'];
    const text = `end = 1\nmote = [${first}${between}${second}, ]\nloss = [{from = 1, to = 0, every = 2}]\n` +
      '[programs]\np = "mote = [{"\n';
    assert.equal(made(text, 'move', {mote: 0, x: -40, y: 1}), text.replace('x = 1, y = -2', 'x = -40, y = 1'));
    assert.equal(made(text, 'move', {mote: 1, x: 5, y: 6}), text.replace('"y" = 2,x=3 ,', '"y" = 6,x=5 ,'));
    assert.deepEqual(tables(text, 'add', {x: 4, y: 5, program: 'p'}).mote[2], {x: 4, y: 5, program: 'p'});
    assert.equal(made(text, 'lose', loss(1, 0, 7)), text.replace('every = 2', 'every = 7'));
    const without = made(text, 'lose', loss(1, 0, 0));
    assert.ok(without.includes('\nloss = []\n'));
    assert.ok(made(without, 'lose', loss(0, 1, 3)).includes('\nloss = [{ from = 0, to = 1, every = 3 }]\n'));
    for (const gone of [0, 1]) assert.equal(tables(text, 'remove', {mote: gone}).mote.length, 1);
    for (const pairs of [[[0, 1], [1, 2], [0, 2]], [[0, 2], [0, 1], [1, 2]], [[1, 2], [0, 2], [0, 1]]]) {
      for (const end of ['', ',', ' , ']) {
        const losses = pairs.map(([from, to]) => `{ from = ${from}, to = ${to}, every = 2 }`).join(between);
        const three = `mote = [{ x = 0 }, { x = 1 }, { x = 2 }]\nloss = [${losses}${end}]\n`;
        for (const gone of [0, 1, 2]) {
          assert.deepEqual(tables(three, 'remove', {mote: gone}).loss, [loss(0, 1, 2)], three);
        }
      }
    }
  });
}

test('what the map can\'t change is refused, and why', () => {
  const cases = [['move', {mote: 3, x: 0, y: 0}, /whole number/], ['move', {mote: 0, x: 30001, y: 0}, /whole number/],
    ['move', {mote: 0, x: 0.5, y: 0}, /whole number/], ['move', {mote: 0, x: 0}, /whole number/],
    ['add', {x: 0, y: 0, program: 'q'}, /no program q/], ['lose', loss(1, 1, 2), /between two motes/]];
  for (const [what, wish, why] of cases) assert.throws(() => edit(NET, {what, ...wish}), why);
  assert.throws(() => edit(`${NET}[`, {what: 'move', mote: 0, x: 1, y: 1}), /has an error/);
  assert.throws(() => edit('mote = [{x.y = 1}]', {what: 'move', mote: 0, x: 1, y: 1}), Refused);
});
