"""Pictures of sweeps. Tables, and what is refused, are in sessions/plot.toml."""
import subprocess
from xml.etree import ElementTree

from here import Room, call, rows_of
from motesim import packages
from sessions import TABLES, Table
from skips import interpreter_with


class Pictures(Room):
    @classmethod
    def setUpClass(cls) -> None:
        interpreter_with(cls, 'matplotlib')
        # (the processes that draw a picture are forked from this one)
        if packages.is_here('matplotlib'):
            packages.load('matplotlib').use('Agg')
            packages.load('matplotlib.pyplot')

    def setUp(self) -> None:
        super().setUp()
        table = Table(TABLES / 'plot.toml')
        table.write(self.room, table.files)

    def plot(self, words: str, *more: str) -> subprocess.CompletedProcess[str]:
        return call('plot', 'net.csv', *words.split(), *more, cwd=self.room)

    def test_pictures_of_each_kind_with_their_tables(self) -> None:
        for name, head, words in (
                ('a.svg', b'<?xml', '--against period --show mean --log'), ('b.pdf', b'%PDF-', '--against period'),
                ('c.png', b'\x89PNG', '--against period --show mean'), ('d.svg', b'<?xml', '--by period'),
                ('e.svg', b'<?xml', '--against ok')):
            made = []
            for _ in range(2 if name == 'a.svg' else 1):
                done = self.plot('--measure sent --param density=thin', *words.split(), '-o', name)
                self.assertEqual((done.returncode, done.stdout.splitlines()[0], done.stderr), (0, name, ''))
                made.append((self.room / name).read_bytes())
            self.assertTrue(made[0].startswith(head) and made[0] == made[-1], name)
            lines = (self.room / (name[0] + '.table.csv')).read_text().splitlines()
            self.assertIn('"command": "tools/plot net.csv', lines[0])
            self.assertGreater(len(lines), 2)

    def test_the_texts_of_a_picture(self) -> None:
        done = self.plot('--measure sent --by density --against period -o a.svg --title', 'How it goes', '--y',
                         'packets')
        self.assertEqual(done.stdout.splitlines(), ['a.svg', 'left out: 1 run with an error'])
        texts = [it.text for it in ElementTree.parse(self.room / 'a.svg').iter() if it.tag.endswith('}text')]
        self.assertLess({'How it goes', 'density thin', 'density dense', 'period', 'packets'}, set(texts))

    def test_the_pictures_of_a_plan(self) -> None:
        plan = 'end = 1\nmedium = { range = 1, base = 1, per = 1 }\n[places]\nrule = "line"\ncount = 1\nstep = 1\n' \
               'program = "a.mote"\n[[plot]]\nfile = "a.svg"\nmeasure = "sent"\nagainst = "period"\n%s\n'
        for more, said in rows_of('plots_of_plans.tsv'):
            (self.room / 'a.plan.toml').write_text(plan % more)
            (self.room / 'a.svg').unlink(missing_ok=True)
            done = self.plot('--plan a.plan.toml')
            self.assertIn(said, done.stderr)
            self.assertEqual((done.returncode, (self.room / 'a.svg').exists()), (2, False) if said else (0, True), done)
