"""The scenarios of bench/, and the output of tools/dev/bench about runs. The program is a stand-in."""
import contextlib
import io
import sys
import unittest
from unittest import mock

from here import Room
from motesim.notation.reader import find_fault
from motesim.scenario import Scenario
from project import bench

PROGRAM = ('echo "mote 0 p"\n[ "$1" = --workers ] && [ "$4" = ODD ] && echo "0 halt"\n'
           'echo medium\necho "left 0"\n')


class Scenarios(unittest.TestCase):
    def test_each_is_a_scenario(self) -> None:
        for name in bench.SCENARIOS:
            found = Scenario.parse(bench.generated(name))
            for text in found.programs.values():
                self.assertIsNone(find_fault(text), name)


class Ratios(unittest.TestCase):
    def test_a_cell_has_both_and_their_ratio(self) -> None:
        self.assertEqual(bench.cell('user', [0.5], []), 'user 0.500 s')
        self.assertEqual(bench.cell('memory', [5e6], [1e7]), 'memory 5.0 MB, 10.0 MB: 0.50')
        self.assertEqual(bench.cell('user', [1, 2, 1], [1, 1, 1]), 'user 1.000 s, 1.000 s: 1.00 (1.00 to 2.00)')
        self.assertEqual(bench.cell('user', [2, 3, 4, 50], [2, 2, 2, 2]), 'user 2.000 s, 2.000 s: 1.75 (1.00 to 25.00)')
        self.assertEqual(bench.cell('user', [1], [0]), 'user 1.000 s, 0.000 s')


class Command(Room):
    def said(self, odd: str, *asked: str) -> tuple[str, object]:
        said, program = io.StringIO(), self.put_program('motesim', PROGRAM.replace('ODD', odd))
        with mock.patch.dict('os.environ', MOTESIM=str(program)), contextlib.redirect_stdout(said), \
                contextlib.redirect_stderr(said), self.assertRaises(SystemExit) as end, \
                mock.patch.object(sys, 'argv', ['bench', '--rounds', '1', *asked]):
            bench.main()
        return said.getvalue(), end.exception.code

    def test_each_way_has_a_line(self) -> None:
        said, code = self.said('none', 'timers')
        self.assertEqual(code, 0)
        self.assertEqual([line.split('user')[0].strip() for line in said.splitlines()], ['timers 64 200000',
            'one thread', '--workers 2 --sync joins', '--workers 4 --sync joins', '--workers 2 --sync marks',
            '--workers 4 --sync marks'])

    def test_a_report_that_differs_is_told(self) -> None:
        said, code = self.said('marks', 'timers')
        self.assertEqual(code, 1)
        self.assertIn('THE REPORTS DIFFER', said)
