"""The studio's answers about causes, states and the lines of a sentence."""
import unittest
from typing import Any

import here  # (it puts tools/ on the path)
import test_why
from motesim.report import Report
from motesim.scenario import Scenario
from motesim.causes.source import Source
from motesim.causes.studio import answer


class Answers(unittest.TestCase):
    """The server's answers on the report of test_why."""

    def ask(self, what: str, **asked: object) -> dict[str, Any]:
        return answer(what, Source('small', Report.parse(test_why.REPORT), Scenario.parse(test_why.SCENARIO)), asked)

    def test_why(self) -> None:
        self.assertEqual([it['line'] for it in self.ask('why', row=28)['chain']], [28, 27, 26, 25, 14, 8, 7, 6, 1])
        self.assertEqual(self.ask('why', question='mote 1 prints h 8')['line'], 28)
        self.assertEqual(self.ask('why', question='mote 1 prints h 9')['motes'][0]['misses'][0]['words'],
                         'h had left at 7')
        self.assertIn('no trace', self.ask('why', row=99)['said'])
        self.assertIn('a process', self.ask('why', question='mote 1 prints x 9')['said'])

    def test_states(self) -> None:
        self.assertIn({'text': '  event 1 waits: msg 5 for b, posted at 4', 'is_changed': False},
                      self.ask('state', row=9)['rows'])
        for asked in {'row': 1}, {'row': 99}, dict[str, int]():
            self.assertIn('said', self.ask('state', **asked))

