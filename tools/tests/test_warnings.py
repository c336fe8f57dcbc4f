"""Warnings: each has a name, a mistake that gets it at its place, and a program without this mistake that doesn't."""
import re
import unittest
from pathlib import Path

from here import rows_of
from motesim.explain.say import ABOUT_ZERO, NAMES, in_words
from motesim.explain.warned import Warned
from motesim.explain.warnings import of_program, warnings
from motesim.notation.reader import find_fault
from motesim.report import Report
from motesim.report.run import answer
from motesim.scenario import Scenario
from skips import need_built

MOST = 30
ROWS = rows_of('warnings.tsv')
NET = '''%sversion = 2
end = 100
medium = { range = 10, base = 2, per = 100, collide = %s }
mote = [%s]
loss = [%s]
[programs]
'''
MOTE = '{ x = %d, y = 0, program = "%s" }'
HEARS = 'process a; autostart a; receiver a; code a { body { yield_until is(packet); print data; } }'
SENDS = 'process a; autostart a; code a { body { send 7; } }'


def program(text: str) -> str:
    """A program from a row of the table, which may have only statements of a body."""
    if re.match('process|event|semaphore', text):
        return text
    return ('process a; autostart a; receiver a; code a { var x = 0; var y = 900; var z = 0; etimer t; %s'
            'body { %s } }' % ('ctimer c { poll a; } ' * (' c 5' in text), text))


def net(motes: list[tuple[int, str]], losses: str = '', collide: str = 'false', head: str = '', **programs: str) -> str:
    """A scenario with motes at places on a line."""
    text = NET % (head, collide, ', '.join(MOTE % it for it in motes), losses)
    return text + ''.join("%s = '%s'\n" % it for it in programs.items())


def found(text: str) -> list[Warned]:
    """The warnings of a scenario, with its run."""
    got = answer(text.encode())
    assert not got.status, got.fault
    return warnings(Scenario.parse(text), Report.parse(got.report), text)


class Programs(unittest.TestCase):
    def test_each_mistake_has_its_warning_at_its_place(self) -> None:
        for name, wrong, right in ROWS:
            with self.subTest(wrong):
                before, text = program(wrong).partition('@')[0], program(wrong).replace('@', '')
                self.assertIsNone(find_fault(text))
                its = [it for it in of_program('p', text) if it.name == name]
                self.assertEqual([it.token and it.token.column for it in its][:1], [len(before)], text)
                in_words(its[0])
                self.assertIsNone(find_fault(program(right)))
                self.assertNotIn(name, [it.name for it in of_program('p', program(right))], right)

    def test_each_name_has_a_case(self) -> None:
        self.assertLessEqual(len(NAMES), MOST)
        here = Path(__file__).read_text()
        self.assertEqual([name for name in NAMES if name not in {it[0] for it in ROWS} and "'%s'" % name not in here],
                         [])


class Nets(unittest.TestCase):
    def setUp(self) -> None:
        need_built()

    def check(self, text: str, *wanted: Warned) -> None:
        """The warnings about a net, without the texts of programs."""
        its = [it for it in found(text) if it.token is None or it.name in ('broadcast-stays', 'unused-program')]
        self.assertEqual([(it.name, it.mote, it.loss, it.others) for it in its],
                         [(it.name, it.mote, it.loss, it.others) for it in wanted])
        for it in its:
            in_words(it)

    def test_motes_and_links(self) -> None:
        self.check(net([(0, 'p'), (5, 'q')], p=SENDS, q=HEARS))
        self.check(net([(0, 'p'), (5, 'q')], p=SENDS, q=HEARS, r=SENDS), Warned('unused-program'))
        self.check(net([(0, 'p'), (50, 'q'), (99, 'q')], p=SENDS, q=HEARS),
                   Warned('out-of-range', mote=0, others=(1, 2)))
        self.check(net([(0, 'p'), (5, 'q'), (14, 'q')], '{ from = 0, to = 2, every = 2 }', p=SENDS, q=HEARS),
                   Warned('loss-without-link', loss=0))
        self.check(net([(0, 'p'), (5, 'q')], '{ from = 0, to = 1, every = 1 }', p=SENDS, q=HEARS),
                   Warned('loses-everything', mote=1))

    def test_a_broadcast_that_stays_in_its_mote(self) -> None:
        text = 'process a, b; autostart a, b; receiver b; code a { body { broadcast msg 7; } } code b { body { ' \
               'yield_until is(%s); } }'
        self.check(net([(0, 'p'), (5, 'p')], p=text % 'packet'), Warned('broadcast-stays'))
        self.check(net([(0, 'p'), (5, 'p')], p=text % 'msg'))

    def test_packets_of_one_moment(self) -> None:
        twice = SENDS.replace('send 7;', 'send 7; send 8;')
        self.check(net([(0, 'p'), (5, 'q')], collide='true', p=twice, q=HEARS), Warned('same-moment', mote=0))
        self.check(net([(0, 'p'), (5, 'q')], p=twice, q=HEARS))

    def test_the_loop_that_used_up_the_work(self) -> None:
        loop = 'process a; autostart a; code a { var x = 1; body { while (x > 0) { x = (x + 2); } } }'
        text = net([(0, 'p'), (5, 'p')], p=loop)
        self.check(text, Warned('used-up', mote=0, others=(1,)))
        its = next(it for it in found(text) if it.name == 'used-up')
        self.assertEqual(dict(its.facts)['line'], 1)
        self.assertGreater(int(dict(its.facts)['rounds']), 100)

    def test_a_0_that_may_be_a_parameter_is_left_out(self) -> None:
        zero = 'process a; autostart a; code a { var x = 0; body { print x; } }'
        self.assertEqual([it.name for it in found(net([(0, 'p')], p=zero))], ['never-assigned'])
        self.assertIn('never-assigned', ABOUT_ZERO)
        self.assertEqual(found(net([(0, 'p')], head='# Parameters: k = 0\n', p=zero)), [])
