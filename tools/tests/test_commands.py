"""The thin modules of the commands: that they start at once, and that their defaults are those of the libraries."""
import re
import subprocess
import sys
import tempfile
import unittest
from pathlib import Path

from here import TOOLS, TOP, call, text_of
from motesim.home import VERBS
from motesim.commands import search, shrink, sweep
from motesim.experiments import asked
from motesim.runner.programs import CHECKER, PROGRAM
from motesim.surveys.searching import LIMITS
from skips import need_built

# (an installation has more verbs: in a clone, ./run runs a scenario)
COMMANDS = [it for it in VERBS if it not in ('completion', 'run')]
# The modules that only the work of a command needs: reports, the judge, processes, numbers.
HEAVY = ('motesim.report', 'motesim.judge', 'motesim.runner', 'motesim.scenario',
         'subprocess', 'multiprocessing', 'tomllib')

# Prints the help of each command, and what it has imported, in a process of its own.
HELPS = text_of('helps.py.txt')


class Commands(unittest.TestCase):
    def test_each_has_a_script(self) -> None:
        for name in COMMANDS:
            script = (TOOLS / name).read_text()
            self.assertIn('from motesim.commands.%s import main' % name, script)
        self.assertGreater(len(COMMANDS), 14)

    def test_help_imports_nothing_that_only_the_work_needs(self) -> None:
        done = subprocess.run([sys.executable, '-B', '-I', '-S', '-c', HELPS, TOOLS, *COMMANDS], capture_output=True,
                              text=True)
        self.assertEqual((done.returncode, done.stderr), (0, ''))
        helps = re.findall(r'^usage: .*?^imported (.*?)$', done.stdout, re.M | re.S)
        self.assertEqual(len(helps), len(COMMANDS))
        for name, imported in zip(COMMANDS, helps):
            self.assertFalse(set(HEAVY) & set(imported.split()), name)

    def test_the_same_words_mean_the_same_in_all_tools(self) -> None:
        need_built(PROGRAM, CHECKER)
        net, holds, broken = str(TOP / 'examples/flooding.toml'), 'mote 6 prints flood 1', 'mote 6 halts'
        for words, status, said in ((('expect', net, '--expect', holds), 0, '1 passed, 0 failed'),
                                    (('expect', net, '--expect', holds, '--expect', broken), 1, '1 passed, 1 failed'),
                                    (('why', net, '--expect', holds, '--short'), 0, 'mote 6, line 221 of the report'),
                                    (('why', '--json', net, '--expect', broken), 1, '"holds": false'),
                                    (('log', net, '--expect', holds), 0, '46    6  221  print flood 1'),
                                    (('log', '--csv', net, holds), 0, 'moment'),
                                    (('summary', '--csv', net, '--motes'), 0, 'mote,program,sent'),
                                    (('log', net, holds, '--expect', holds), 2,
                                     'this command takes only one expectation'),
                                    (('expect', net, net, '--expect', holds), 2,
                                     'in a file or in --expect, not in both'),
                                    (('sweep', 'a.toml', '--vary', 'a=1'), 2, '--vary; did you mean --param?'),
                                    (('search', net, '--bytes', '9'), 2, '--bytes; did you mean --report?'),
                                    (('plot', 'a.csv', '--measure', 'x', '--measure', 'z'), 2, 'is given twice'),
                                    (('grade', 'a.toml', 'b.toml', '-o', '-'), 2, '-o needs the name of a file')):
            with self.subTest(words):
                done = call(*words)
                self.assertEqual(done.returncode, status, done)
                self.assertIn(said, done.stdout + done.stderr)

    def test_a_table_goes_to_the_file_that_follows(self) -> None:
        need_built()
        with tempfile.TemporaryDirectory() as room:
            for form in 'csv', 'json':
                words = 'summary', str(TOP / 'examples/flooding.toml'), '--motes', '--' + form
                whole = call(*words, cwd=room)
                done = call(*words, 'net.' + form, cwd=room)
                self.assertEqual((done.returncode, done.stdout, done.stderr), (0, 'net.%s\n' % form, whole.stderr))
                self.assertEqual(Path(room, 'net.' + form).read_text(), whole.stdout)

    def test_defaults_are_those_of_the_libraries(self) -> None:
        self.assertEqual((search.SECONDS, search.REPORT << 20, shrink.SECONDS),
                         (LIMITS.seconds, LIMITS.report, LIMITS.seconds))
        self.assertEqual(sweep.REPORT << 20, asked.MOST_BYTES)
