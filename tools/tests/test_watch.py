"""The values of variables, and the state of a mote. The values are worked out by hand from the scenarios."""
import unittest

from here import TOP
import skips
import test_why
from motesim.faults import Fault
from motesim.report import Report
from motesim.report.run import answer
from motesim.scenario import Scenario
from motesim.causes.source import At, Source
from motesim.causes.say import heading, rows_of_state, state_as_json
from motesim.causes.state import after_line, after_moment, read_state
from motesim.causes.watch import read_watch, replayed


class Questions(unittest.TestCase):
    def test_what_is_watched(self) -> None:
        source = Source('test', Report.parse(test_why.REPORT), Scenario.parse(test_why.SCENARIO))
        for words, said in (('mote 0 n', "there is no variable 'n'"), ('mote 2 n', 'there is no mote 2'),
                            ('newest', "'newest' is not known")):
            with self.assertRaisesRegex(Fault, said):
                read_watch(source, words)


class States(unittest.TestCase):
    def setUp(self) -> None:
        self.source = Source('test', Report.parse(test_why.REPORT), Scenario.parse(test_why.SCENARIO))

    def test_after_a_moment(self) -> None:
        """At 4 c has set its timer, and has left; the timer runs on, and its callback will come at 6."""
        self.assertEqual([it.text for it in rows_of_state(state_as_json(after_moment(self.source, 0, 4)))], [
            '  process a waits at line 14: `yield`', '  process b waits at line 23: `yield_until is(msg)`',
            '  process c has left', '  timer late of c is due at 6, in 2 moments; set at 4 in line 36: `set late 2`',
            '  the event queue is empty'])

    def test_after_a_line(self) -> None:
        """After the post of line 9 the event for b waits, and a is in its call; c isn't started yet."""
        state = state_as_json(after_line(self.source, At(0, 7)))
        self.assertEqual(state['queue'], [{'serial': 1, 'for': 'b', 'event': 'msg', 'word': 5, 'from': 0,
                                           'posted_at': 4}])
        self.assertEqual([(it['name'], it['started'], it['polled']) for it in state['processes']],
                         [('a', True, False), ('b', True, True), ('c', False, False)])
        self.assertEqual(state['processes'][2]['waits'], 'is not started')
        self.assertEqual(state['timers'], [])
        self.assertEqual(state['call']['process'], 'a')
        self.assertIsNone(state_as_json(after_moment(self.source, 0, 4))['call'])

    def test_what_is_asked(self) -> None:
        for words, at, said in (('mote 0 at 6', 6, 'mote 0 at the end of moment 6'),
                                ('0:9', 4, 'mote 0 after line 9: 4 post 1 b msg 5')):
            state = read_state(self.source, words)
            self.assertEqual((state.at, heading(self.source, state)), (at, said))
        for words in 'mote 2 at 3', 'mote 0 at 21', '0:1', 'here':
            with self.assertRaises(Fault):
                read_state(self.source, words)


class Runs(unittest.TestCase):
    def setUp(self) -> None:
        skips.need_built()

    def source(self, text: str) -> Source:
        return Source('test', Report.parse(answer(text.encode()).report), Scenario.parse(text))

    def test_flooding(self) -> None:
        """Mote 3 is 3 hops from mote 0: message 1 comes at 40 + 9, and 3 at 120 + 9; 2 goes around a loss, 6 later."""
        source = self.source((TOP / 'examples/flooding.toml').read_text())
        values = replayed(source, *read_watch(source, 'mote 3 newest'))
        self.assertEqual([(it.at, it.value) for it in values], [(0, 0), (49, 1), (95, 2), (129, 3)])
