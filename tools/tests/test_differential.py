"""The comparison of motesim with the host: what its scenarios reach, and that it notices what differs.
test_contiki_host.py has the mutants of the host."""
import shutil
import unittest
from collections import Counter

from here import TOOLS, TOP, Room
from project.differential import compare as differential
from project.differential.coverage import Coverage
from project.differential.host_runs import HostFault, HostRuns, compilers
from project.differential.random_scenario import random_scenario
from motesim.notation.reader import find_fault
from motesim.runner import Runner
from motesim.runner.programs import program_path
from motesim.scenario import Scenario
from skips import long, need_built

HOST = TOOLS / 'contiki_host'


def need_compiler(test: unittest.TestCase) -> None:
    try:
        compilers()
    except HostFault as fault:
        test.skipTest(str(fault))


class Generator(unittest.TestCase):
    def test_scenarios_are_right_and_reach_all_that_there_is(self) -> None:
        coverage = Coverage()
        for seed in range(400):
            reached: Counter[str] = Counter()
            scenario = Scenario.parse(random_scenario(seed, reached))
            if seed % 4 == 0:
                for text in scenario.programs.values():
                    self.assertIsNone(find_fault(text), seed)
            coverage.add(reached)
        missing = [name for sort, names in coverage.wanted().items() if sort != 'forms of lines' for name in names
                   if not coverage.reached[name]]
        self.assertEqual(missing, [])

    def test_a_seed_has_one_scenario(self) -> None:
        self.assertEqual(random_scenario('abc-1'), random_scenario('abc-1'))
        self.assertNotEqual(random_scenario('abc-1'), random_scenario('abc-2'))


@long
class Command(Room):
    def setUp(self) -> None:
        super().setUp()
        need_built()
        need_compiler(self)

    def test_all_agree(self) -> None:
        done = self.tool('differential', '--seed', '31', '--count', '12', '--jobs', '2')
        self.assertEqual(done.returncode, 0, done.stdout)
        self.assertEqual(done.stdout.splitlines()[-1], '12 passed, 0 failed')
        self.assertIn('forms of lines: ', done.stdout)

    def test_a_scenario_of_ones_own(self) -> None:
        done = self.tool('differential', str(TOP / 'examples/processes.toml'), '--jobs', '1')
        self.assertEqual((done.returncode, done.stdout), (0, '1 passed, 0 failed\n'))

    def test_without_a_compiler(self) -> None:
        folder = self.room / 'bin'
        folder.mkdir()
        done = self.tool('differential', '--count', '1', PATH=str(folder))
        self.assertEqual((done.returncode, done.stderr),
                         (2, 'differential: there is no C compiler: on Debian `apt-get install tcc` installs one\n'))

    def test_a_simulator_that_takes_no_workers_does_not_differ(self) -> None:
        refusing = self.room / 'motesim'
        refusing.write_text('#!/bin/sh\n[ $# = 0 ] && exec %s\necho refused >&2\nexit 2\n' % program_path())
        refusing.chmod(0o755)
        done = self.tool('differential', '--count', '1', MOTESIM=str(refusing))
        self.assertEqual((done.returncode, done.stdout), (2, ''))
        self.assertIn('no answer: motesim --workers 2 --cut block --sync joins: refused (--one-thread', done.stderr)
        done = self.tool('differential', '--count', '1', '--one-thread', MOTESIM=str(refusing))
        self.assertEqual(done.stdout.splitlines()[-1], '1 passed, 0 failed')

    def test_a_difference_becomes_small(self) -> None:
        """A host that loses packets by their numbers, instead of their numbers plus one."""
        source = self.room / 'source'
        shutil.copytree(HOST, source)
        path = source / 'medium.c'
        path.write_text(path.read_text('utf-8').replace('(copy.number + 1) % ', 'copy.number % '), 'utf-8')
        work = differential.Comparison(HostRuns(self.room / 'built', source, is_optimised=False),
                                       Runner(program=program_path()), with_workers=False)
        scenario = (TOP / 'examples/small_network.toml').read_bytes()
        self.assertTrue(work.is_different(scenario))
        smallest = work.smallest(scenario)
        self.assertTrue(work.is_different(smallest))
        found = Scenario.parse(smallest)
        self.assertEqual((found.motes, len(found.losses)), (2, 1))
        self.assertLess(len(smallest), 400)
