"""The modules that scripts load: `import motesim` is quick as long as they are few.

Only `expect`, `search` and `why` need more lines than the others: `expect` reads expectations and the scenario's
programs, makes claims of them, runs `motecheck`, and finds in the report's lines why an expectation is broken;
`search` has it survey faults; `why` runs motes again.
"""
import subprocess
import sys
import unittest

from here import TOOLS, text_of
import motesim

MOST_LINES, MORE = 4_000, {'expect': 5_900, 'why': 10_000, 'search': 9_000}
LOADED = text_of('loaded.py.txt')


class Imports(unittest.TestCase):
    def test_each_name_loads_few_lines(self) -> None:
        done = subprocess.run([sys.executable, '-c', LOADED % str(TOOLS)], capture_output=True, text=True, check=True)
        loaded = [line.split() for line in done.stdout.splitlines()]
        self.assertEqual([name for name, _ in loaded], motesim.__all__)
        for name, lines in loaded:
            self.assertLessEqual(int(lines), MORE.get(name, MOST_LINES), name)
