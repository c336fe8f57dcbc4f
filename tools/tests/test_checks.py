"""The commands in tools/dev that test the built program. The programs here are stand-ins, and most have an error."""
import os
import runpy
import shutil
import subprocess
import sys
import unittest
from collections import Counter
from itertools import product
from typing import Any, NoReturn
from unittest import mock

import pytest
from here import HOLDS, TOP, Room, call, text_of
from motesim.faults import Fault
from motesim.report import Report
from motesim.runner import Answer
from motesim.report.run import Run
from motesim.scenario import Scenario
from project import testing
from skips import long

# (no test here is worth several processes)
ALONE = {'TEST_JOBS': '0'}


def go_on_as(called: list[str], **environment: str) -> NoReturn:
    """Runs pytest in this process, which a command of tools/dev would replace by one that loads pytest again."""
    os.environ.update(environment)
    sys.exit(pytest.main(called[called.index('pytest') + 1:]))


def module(name: str) -> dict[str, Any]:
    """The definitions of a module of tests/."""
    with mock.patch.object(sys, 'path', [str(TOP / 'tests'), *sys.path]):
        return runpy.run_path(str(TOP / 'tests' / name))


class Check(Room):
    def setUp(self) -> None:
        super().setUp()
        self.program = self.room / 'motesim'

    def put_motesim(self, script: str) -> None:
        self.put_program('motesim', script)

    def check(self, command: str, *words: object) -> tuple[str, str, int]:
        """The output of a command, its last line, and its status."""
        with mock.patch.object(testing, 'become', go_on_as):
            done = call('dev/' + command, *map(str, words), env={**os.environ, **ALONE, 'MOTESIM': str(self.program)})
        return done.stderr + done.stdout, (done.stdout or done.stderr).splitlines()[-1], done.returncode


class Cases(Check):
    @mock.patch('motesim.runner.process.PATIENCE', 1)
    def test_a_program_that_does_not_end_is_reported(self) -> None:
        self.put_motesim(HOLDS)
        with self.assertRaisesRegex(Fault, 'no answer in 0.1 seconds'):
            module('differences.py')['answer'](self.program, b'', seconds=0.1)

    def test_a_case_that_fails_shows_the_lines_that_differ(self) -> None:
        self.put_motesim('echo mote 0 p; echo medium; exit 3')
        said, last, status = self.check('run_cases', 'nets/two_senders')
        self.assertEqual((last, status), ('0 passed, 1 failed, 0 skipped', 1))
        self.assertIn('nets/two_senders', said)
        for line in '--- expected', '+++ found', '@@ -1,36 +1,5 @@', '-status: 0', '+status: 3', '-2 recv 0 0 5':
            self.assertIn('\n%s\n' % line, said)

    def test_a_folder_of_cases_and_a_name_of_no_case(self) -> None:
        self.assertIn('there is no program', self.check('run_cases', 'queues')[0])
        self.put_motesim('cat')
        cases = {it.with_suffix('') for it in (TOP / 'tests/cases/queues').iterdir()}
        self.assertEqual(self.check('run_cases', 'queues')[1], '0 passed, %d failed, 0 skipped' % len(cases))
        said, _, status = self.check('run_cases', 'nets/none')
        self.assertEqual(('there is no case nets/none' in said, status != 0), (True, True))

    def test_files_that_make_no_case(self) -> None:
        case = module('test_cases.py')['Case']
        for names, why in [
            ({'a.expected': ''}, 'nothing to run'), ({'a.toml': ''}, 'no expectation'),
            ({'a.toml': '', 'a.make': '', 'a.status': '1'}, 'both .toml and .make'),
            ({'a.make': 'def table(): return []'}, 'a table'),
            ({'a.make': 'def table(): return [1]', 'a.status': '1'}, 'a table'),
        ]:
            for name, text in names.items():
                self.put(name, text)
            with self.assertRaisesRegex(BaseException, why):
                case(self.room / 'a').check_files()
            for name in names:
                (self.room / name).unlink()


class SpoiledBytes(Check):
    def test_each_byte_and_the_fronts_fail_for_another_program(self) -> None:
        self.put_motesim('echo "motesim: scenario fault 1" >&2; exit 1')
        said, last, status = self.check('spoil_bytes')
        self.assertEqual((last, status), ('1 passed, 7 failed, 0 skipped', 1))
        self.assertIn("180 times scenario fault 1, not 0', '0 times scenario is not UTF-8, not 180", said)
        self.assertIn('can\'t select case', self.check('spoil_bytes', 'case')[0])


class ChosenExamples(Check):
    def test_a_name_selects_an_example_or_a_task(self) -> None:
        self.put_motesim('exit 1')
        said, last, _ = self.check('check_examples', 'flooding', 'task1')
        self.assertEqual(last, '0 passed, 2 failed, 0 skipped')
        for name in 'flooding.toml', 'task1.expect.toml':
            self.assertIn('test_statements[%s]' % name, said)
        self.assertIn('there is no example or task none; there are: broadcast', self.check('check_examples', 'none')[0])


class Workers(Check):
    def setUp(self) -> None:
        super().setUp()
        self.scenario = self.put('a.toml', 'end = 5\n')
        self.put('a.expect.toml', '')

    def compared(self, odd: str) -> tuple[str, str, int]:
        """The result for a program that writes its arguments next to it, and the scenario, or something else if an
        argument is odd."""
        self.put_motesim('echo "$*" >>%s/words\ncase " $* " in *" %s "*) echo another ;; *) cat ;; esac' % (
            self.room, odd))
        return self.check('compare_workers', self.scenario)

    def test_each_way_once_and_a_kind_that_differs(self) -> None:
        self.assertEqual(self.compared('none')[1:], ('1 passed, 0 failed, 0 skipped', 0))
        words = (self.room / 'words').read_text().splitlines()
        ways = ['--workers %d --cut %s --sync %s' % it for it in product((1, 2, 3, 7, 16), ('block', 'stripe'),
                                                                          ('joins', 'marks'))]
        self.assertEqual((words[0], sorted(words[1:])), ('', sorted(ways)))
        said, last, status = self.compared('marks')
        self.assertIn('--workers 1 --cut block --sync marks differs:', said)
        self.assertIn('\n-end = 5\n+another\n', said)
        self.assertEqual((last, status), ('0 passed, 1 failed, 0 skipped', 1))
        # (a report that is written down)
        self.put('a.expected', 'end = 6\n')
        said, last, _ = self.compared('none')
        self.assertEqual(('on one thread differs:' in said, last), (True, '0 passed, 1 failed, 0 skipped'))


PAGE = text_of('commands.md')


class Pages(Check):
    def setUp(self) -> None:
        super().setUp()
        self.put_motesim('echo "ran $(cat "$1")"')

    def test_another_output_fails(self) -> None:
        page = self.put('PAGE.md', PAGE)
        self.assertEqual(self.check('check_tutorial', page)[1:], ('2 passed, 0 failed, 0 skipped', 0))
        for changed in PAGE.replace('\ndone\n', '\nover\n'), PAGE.replace('\n```\nran end = 5\ndone\n```\n', ''):
            said, last, status = self.check('check_tutorial', self.put('PAGE.md', changed))
            self.assertEqual((last, status), ('1 passed, 1 failed, 0 skipped', 1))
            self.assertIn('PAGE.md, line 12', said)
            self.assertIn('\n+done\n', said)

    def test_a_block_needs_its_end(self) -> None:
        for text in 'text\n```sh\ntrue\n', '```sh\n```sh\n```\n':
            said, _, status = self.check('check_tutorial', self.put('PAGE.md', text))
            self.assertIn('a block of the page has no end', said)
            self.assertNotEqual(status, 0)


QUOTES = text_of('quotes.md')
# Mote 1 is between mote 0, the root, and mote 2.
SCENARIO = text_of('collects.toml')
REPORT = text_of('collects.report')


class Examples(unittest.TestCase):
    def setUp(self) -> None:
        self.examples = module('test_examples.py')

    def test_blocks_belong_to_the_example_that_is_named_last(self) -> None:
        self.assertEqual(self.examples['quotes_of'](QUOTES), [('one', 'a line of one'), ('two', 'end = 5'),
                                                              ('two', '..')])

    def test_a_quoted_line_is_in_the_scenario_or_the_report(self) -> None:
        check_quotes, report = self.examples['check_quotes'], Report.parse(REPORT)
        check_quotes(SCENARIO, report, [('P', '  end = 400'), ('P', '304 send 1 2'), ('P', '..')])
        with self.assertRaisesRegex(BaseException, 'P quotes a line that is not there: `305 send 1 2`'):
            check_quotes(SCENARIO, report, [('P', '305 send 1 2')])

    def test_each_mote_sends_the_readings_of_those_below_it(self) -> None:
        check_readings, scenario = self.examples['check_readings'], Scenario.parse(SCENARIO)
        check_readings(Run('r', Report.parse(REPORT), scenario))
        with self.assertRaisesRegex(AssertionError, 'mote 1 sends'):
            check_readings(Run('r', Report.parse(REPORT.replace('304 send 1 2\n', '')), scenario))


# A program that asks for memory three times, or starts two threads, the second one after the first has ended if JOINS
# is 1; it says so if one is refused, except for the request CALM.
ASKS = text_of('asks.c')
WORKERS = '--workers', '2'
NO_MEMORY, NO_THREAD = '"motesim: out of memory\\n"', '"motesim: run fault 5\\n"'


class Memory(Check):
    def test_answers_that_may_be(self) -> None:
        names = module('test_memory.py')
        may_be, calls, whole = names['may_be'], names['CALLS'], Answer(0, b'mote 0 p\nleft 0\n', b'')
        out_of_memory, no_thread = b'motesim: out of memory\n', b'motesim: run fault 5\n'
        one, workers = ['a.toml'], ['a.toml', '--workers', '2']
        for found, words in [(whole, one), (Answer(1, b'', out_of_memory), one),
                             (Answer(1, b'mote 0 p\n', out_of_memory), workers), (Answer(1, b'', no_thread), workers),
                             (whole, calls), (Answer(101, b'', b'error: Memory\n'), calls)]:
            self.assertTrue(may_be(found, whole, words, 'first'), found)
        for found, words in [(Answer(0, b'mote 0 p\n', b''), one), (Answer(0, b'', out_of_memory), one),
                             (Answer(1, b'left 0\n', out_of_memory), one), (Answer(1, b'', no_thread), one),
                             (Answer(1, b'mote 0 p\n', no_thread), workers),
                             (Answer(1, b'', b'motesim: run fault 6\n'), workers), (Answer(-11, b'', b''), workers),
                             (Answer(0, b'', b''), calls), (Answer(1, b'', out_of_memory), calls),
                             (Answer(-6, b'', b'assertion failed'), calls)]:
            self.assertFalse(may_be(found, whole, words, 'first'), found)
        # (a test that returns an error if nothing is refused: no such test, say)
        self.assertFalse(may_be(Answer(101, b'', b''), Answer(101, b'', b''), calls, 'first'))
        # (a refused start isn't reported as memory)
        for found in whole, Answer(1, b'', no_thread):
            self.assertTrue(may_be(found, whole, workers, 'start'), found)
        self.assertFalse(may_be(Answer(1, b'', out_of_memory), whole, workers, 'start'))

    def test_what_no_request_has_shown(self) -> None:
        names = module('test_memory.py')
        lacks, workers, many = names['lacks'], ['a.toml', '--workers', '2'], [names['MANY_LINES'], '--workers', '2']
        out_of_memory, no_thread = b'motesim: out of memory\n', b'motesim: run fault 5\n'
        memory = Counter({('other', out_of_memory): 1, ('other', no_thread): 2})
        self.assertIsNone(lacks(Counter({('first', out_of_memory): 1}), ['a.toml']))
        self.assertIsNone(lacks(memory, workers))
        self.assertIsNone(lacks(memory + Counter({('start', b''): 1}), many))
        self.assertIn('as a failed thread', lacks(Counter({('other', no_thread): 3}), workers))
        self.assertIn('refused its start', lacks(memory + Counter({('start', no_thread): 2}), many))

    def test_the_gate_counts_the_runs(self) -> None:
        names = module('test_memory.py')
        self.assertIn('tools/dev/refuse_memory program %d\n' % len(names['RUNS']), (TOP / 'test').read_text('utf-8'))
        folder, _, test = names['CALLS'][1].rpartition('::')
        source = TOP / 'crates/part_tests/src' / folder.replace('::', '/')
        self.assertIn('fn %s(' % test, source.with_suffix('.rt').read_text('utf-8'))

    @unittest.skipUnless(shutil.which('cc'), 'there is no C compiler cc here')
    @long
    def test_each_request_is_refused(self) -> None:
        # (a start asks for a stack, and for memory of the thread's own; the second one is refused a stack too, though
        # it could use that of a thread that has ended)
        for words, calm, joins, fault, said in (
                ((), 0, 0, NO_MEMORY, ''), ((), 2, 0, NO_MEMORY, ''), (WORKERS, 0, 0, NO_THREAD, ''),
                (WORKERS, 0, 1, NO_THREAD, ''), ((), 1, 0, '"motesim: fault\\n"', 'request 2 refused: status 1, '),
                ((), 1, 0, NO_THREAD, 'request 2 refused: status 1, '),
                (WORKERS, 0, 0, '"motesim: run fault 6\\n"', 'request 1 refused: '),
                ((), None, 0, NO_MEMORY, 'no request that can be refused')):
            with self.subTest(words=words, calm=calm, joins=joins, fault=fault):
                source = self.put('p.c', ASKS if calm is not None else 'int main(void) { return 0; }')
                subprocess.run(['cc', '-O0', '-DCALM=%s' % calm, '-DJOINS=%d' % joins, '-DFAULT=' + fault, '-o',
                                str(self.program), str(source), '-pthread'], check=True)
                found, last, status = self.check('refuse_memory', self.put('s.toml'), '--', *words)
                self.assertIn(said, found)
                self.assertEqual(status, int(bool(said)))
                self.assertEqual(last, '%d passed, %d failed, 0 skipped' % (not said, bool(said)))
