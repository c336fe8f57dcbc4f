"""The public calls."""
import os
import subprocess
import sys
from pathlib import Path
from unittest import mock

import pytest
from here import TOOLS, TOP, Room, scenario_of, text_of
import motesim
from skips import need_built
from stub import programs_of, write_stub

SCENARIO = scenario_of('process a; autostart a; code a { body { print 7; } }', (0, 0), (10, 0), (20, 0))
PLAN = text_of('api.plan.toml')
MOTE = 'process a;\nautostart a;\ncode a { body { print ${first}; } }\n'


class Calls(Room):
    def setUp(self) -> None:
        super().setUp()
        # (mote n of the stand-in prints P at moment P * (n + 1))
        self.enterContext(mock.patch.dict(os.environ, programs_of(write_stub(self.room))))

    def test_a_text_is_run(self) -> None:
        run = motesim.run(SCENARIO.encode())
        self.assertEqual([str(mote.lines[-1]) for mote in run.report.motes], ['7 print a 7', '14 print a 7',
                                                                              '21 print a 7'])
        self.assertEqual(run.scenario and run.scenario.motes, 3)

    def test_a_plan_is_run_with_its_parameters(self) -> None:
        (self.room / 'net.plan.toml').write_text(PLAN)
        (self.room / 'a.mote').write_text(MOTE)
        plan = motesim.Plan.read(self.room / 'net.plan.toml')
        self.assertEqual(str(motesim.run(plan).report.motes[1].lines[-1]), '8 print a 4')
        self.assertEqual(str(motesim.run(plan, {'first': 5}).report.motes[1].lines[-1]), '10 print a 5')
        found = motesim.run(self.room / 'net.plan.toml', {'first': 5})
        self.assertEqual(str(found.report.motes[1].lines[-1]), '10 print a 5')
        with self.assertRaisesRegex(motesim.Fault, 'parameters are for plans'):
            motesim.run(SCENARIO.encode(), {'first': 5})

    def test_sentences_are_judged(self) -> None:
        run = motesim.run(SCENARIO.encode())
        kept = motesim.expect(run, ['mote 1 prints a 7 by 14', 'mote 2 prints a 7 by 20'])
        self.assertEqual([(it.holds, bool(it), it.row) for it in kept], [(True, True, None), (False, False, 18)])
        self.assertIn('at least 1 line "print process a value 7"', kept[1].why)
        self.assertTrue(motesim.expect(run, 'no mote halts')[0])
        with self.assertRaisesRegex(motesim.Fault, 'expectation 1 is not known'):
            motesim.expect(run, 'mote 1 sings')
        with self.assertRaisesRegex(motesim.Fault, 'needs the scenario'):
            motesim.expect(run._replace(scenario=None), 'no mote halts')

    def test_a_run_is_asked_for_a_mote(self) -> None:
        run = motesim.run(SCENARIO.encode())
        mote = run.mote(1)
        its = [mote.prints('a', 7), mote.prints('just a 7 by 14'), mote.sends(), mote.receives('7 from mote 0'),
               mote.halts(), mote.does('never prints a 8'), run.expect('no mote halts')]
        self.assertEqual([it.holds for it in its], [True, True, False, False, False, True, True])
        self.assertEqual((its[3].expectation, repr(its[0])),
                         ('mote 1 receives 7 from mote 0', 'holds: mote 1 prints a 7'))
        self.assertRegex(repr(run.mote(2).prints('a by 20')),
                         'broken: mote 2 prints a by 20 -- not for .*; the next is line 18')

    def test_why_a_line_is_there_or_is_not(self) -> None:
        run = motesim.run(SCENARIO.encode())
        self.assertIn('no line of a trace shows it', motesim.why(run, 'mote 0 never sends 9'))
        self.assertIn('at least 1 line "send value 9", but there are 0', motesim.why(run, 'mote 0 sends 9'))
        with self.assertRaisesRegex(motesim.Fault, 'needs the scenario'):
            motesim.why(run._replace(scenario=None), 'mote 0 sends')

    def test_runs_are_compared(self) -> None:
        one, other = (motesim.run(SCENARIO.replace('print 7', 'print %d' % n).encode()) for n in (7, 5))
        self.assertEqual((motesim.compare(one, one).same, motesim.compare(one, one).at), (True, None))
        found = motesim.compare(one, other)
        self.assertEqual((found.same, found.at), (False, 5))
        self.assertIn('The reports differ.', found.text)

    @mock.patch('motesim.runner.process.PATIENCE', 1)
    def test_limits_and_faults(self) -> None:
        with self.assertRaisesRegex(motesim.Fault, 'no answer in 0.2 seconds'):
            motesim.run(SCENARIO.replace('{ body', '{ // wait\nbody').encode(), limits=motesim.Limits(0.2))
        with self.assertRaisesRegex(motesim.Fault, 'TOML'):
            motesim.run(b'[')
        with self.assertRaises(AttributeError):
            motesim.nothing


def test_a_search_finds_the_faults_that_break_expectations() -> None:
    need_built()
    name, expected = TOP / 'examples/news.toml', ['every mote sends at most once', 'every mote but 0 prints news']
    found = motesim.search(name, expected, links=True, at_most=2)
    pair = 'link 1 to 2 is broken', 'link 4 to 2 is broken'
    assert [(it.faults, it.expectations) for it in found.found] == [(pair, ('every mote but 0 prints news',))]
    assert (found.holding, found.broken, bool(found)) == (('every mote sends at most once',), (), False)
    assert repr(found).startswith(
        'every mote but 0 prints news: broken with link 1 to 2 is broken and link 4 to 2 is broken; cov')
    assert not motesim.run(name, faults=pair).mote(2).prints('news')
    assert motesim.search(name.read_bytes(), expected, links=True) and motesim.search(name, expected[0], late=[1, 4])
    assert motesim.search(name, 'no mote sends', silent=True).broken == ('no mote sends',)
    assert motesim.search(name, expected, links=True, at_most=2, runs=9).ended_by
    with pytest.raises(motesim.Fault, match='expectation 1 is not known'):
        motesim.search(name, 'every mote sings')


def pytest_on(*names: object) -> subprocess.CompletedProcess[str]:
    return subprocess.run([sys.executable, '-m', 'pytest', '-p', 'no:cacheprovider', '-p', 'motesim.api.fixture', '-q',
                           *map(str, names)], capture_output=True, text=True,
                          env={**os.environ, 'PYTHONPATH': str(TOOLS)})


def test_the_test_among_the_examples_passes_and_one_that_fails_shows_the_reason(tmp_path: Path) -> None:
    need_built()
    (tmp_path / 'test_mine.py').write_text("""import pytest
@pytest.mark.scenario(%r)
def test_one(run):
    assert run.mote(8).prints('news 7 by 40')
def test_two(run):
    assert run
""" % str(TOP / 'examples/news.toml'))
    done = pytest_on(TOP / 'examples/test_news.py', tmp_path / 'test_mine.py')
    assert '1 failed, 5 passed, 1 error' in done.stdout, done.stdout
    assert 'E       assert broken: mote 8 prints news 7 by 40 -- not for mote 8: at least 1 line "print' in done.stdout
    assert "write @pytest.mark.scenario('NAME.toml') above the test" in done.stdout
