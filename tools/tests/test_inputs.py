"""No tool replaces its own inputs by a file that it writes, even if the two names of the file differ."""
import os
import subprocess

from here import TOOLS, Room, call, rows_of, scenario_of, text_of
from motesim.faults import Fault
from motesim.files import refuse_inputs
from skips import interpreter_with, need_built

SCENARIO = scenario_of('process a; autostart a; receiver a; code a { body { if (self == 0) { send 1; } yield; print '
                       'data; } }', (0, 0), (5, 0))
PLAN = text_of('inputs.plan.toml')
PROGRAM = 'process a;\nautostart a;\ncode a { body { print ${seed}; } }\n'
REPORT = 'mote 0 p\n0 start etimer\n0 start ctimer\n0 start radio\n0 start a\nmedium\nleft 0\n'
FILES = {'net.toml': SCENARIO, 'net.expect.toml': 'expect = ["mote 1 prints a 1"]\n', 'net.plan.toml': PLAN,
         'a.mote': PROGRAM, 'places.csv': 'x,y\n0,0\n5,0\n', 'run.html': REPORT, 'run.lines.csv': REPORT,
         'measures.py': 'def one(run):\n    return 1\n', 'empty.py': '', 'solutions/anna.toml': SCENARIO,
         'README.md': SCENARIO, 'found.csv': SCENARIO, 'small_1.toml': SCENARIO}


class Inputs(Room):
    def setUp(self) -> None:
        super().setUp()
        for folder in 'solutions', 'other':
            (self.room / folder).mkdir()
        for name, text in FILES.items():
            (self.room / name).write_text(text)
        os.link(self.room / 'a.mote', self.room / 'link')

    def texts(self) -> dict[str, bytes]:
        return {str(it): it.read_bytes() for it in sorted(self.room.rglob('*')) if it.is_file()}

    def done(self, words: str) -> 'subprocess.CompletedProcess[str]':
        """The result of a tool; in the arguments `_` is a space."""
        tool, *more = words.split()
        given = [it if it in FILES else it.replace('_', ' ') for it in more]
        return call(tool, *given, cwd=self.room)

    def test_each_tool_refuses_to_replace_its_inputs(self) -> None:
        need_built()
        before = self.texts()
        for (words,) in rows_of('inputs.tsv'):
            with self.subTest(words):
                done = self.done(words)
                self.assertIn(' would replace ', done.stderr)
                self.assertIn(': name another file with -', done.stderr)
                self.assertEqual((done.returncode, done.stdout), (2, ''))
                self.assertEqual(self.texts(), before)

    def test_a_picture_and_its_tables_replace_no_results(self) -> None:
        python = interpreter_with(self, 'matplotlib')
        need_built()
        self.done('sweep net.plan.toml --param seed=1..3 --measure sent -o a.table.csv')
        before = self.texts()
        words = 'a.table.csv --measure sent --against seed -o a.svg'
        done = subprocess.run([python, '-B', TOOLS / 'plot', *words.split()], cwd=self.room, capture_output=True,
                              text=True)
        self.assertEqual((done.returncode, done.stderr), (
            2, 'plot: writing a.table.csv would replace an input of this command: name another file with -o\n'))
        self.assertEqual(self.texts(), before)

    def test_other_files_may_be_replaced(self) -> None:
        refuse_inputs(self.room / 'a.mote', [self.room / 'net.toml', None, self.room / 'none', '-'])
        refuse_inputs(self.room / 'none', [self.room / 'none'])
        refuse_inputs('/dev/null', ['/dev/null'])
        refuse_inputs(self.room, [self.room])
        with self.assertRaisesRegex(Fault, 'writing .*/link would replace .*/a.mote, an input of this command: name '
                                           'another file with --html$'):
            refuse_inputs(self.room / 'link', [self.room / 'a.mote'], '--html')
