"""The counts of ./test: steps that pass, fail, can't run, and those that may be skipped. The steps are stand-ins."""
import os
import re
import shutil
import signal
import subprocess
from pathlib import Path
from types import SimpleNamespace
from typing import Any
from unittest import mock

from here import HOLDS, SECONDS, TOOLS, TOP, Room, call, text_of, until
from motesim.faults import Fault
from project import counts, testing
from test_checks import go_on_as

STEPS = ['run_cases', 'check_examples', 'check_tutorial', 'spoil_bytes', 'compare_workers', 'refuse_memory',
         'test_tools', 'wrong_bodies', 'check_module']
PASSES = 'echo "2 passed, 0 failed"'


class Gate(Room):
    def setUp(self) -> None:
        super().setUp()
        shutil.copy(TOP / 'test', self.room / 'test')
        for name in STEPS:
            self.put_program('tools/dev/' + name, PASSES)
        for name, text in (('tools/differential', PASSES), ('bin/rt', PASSES), ('bin/nproc', 'echo 1'),
                           *((it, 'true') for it in ('bin/python3', 'bin/node', 'bin/wasm-opt',
                                                     'crates/motesim/out/motesim'))):
            self.put_program(name, text)

    def run_it(self, *words: str, path: str | None = None) -> tuple[list[str], int]:
        here = {**os.environ, 'PATH': path or '%s:%s' % (self.room / 'bin', os.environ['PATH'])}
        done = subprocess.run([str(self.room / 'test'), *words], env=here, capture_output=True, text=True,
                              timeout=SECONDS)
        return done.stdout.splitlines(), done.returncode

    def test_all_steps_are_added_up(self) -> None:
        lines, status = self.run_it()
        self.assertEqual((lines[-1], status), ('22 passed, 0 failed, 0 skipped', 0))
        self.assertEqual(len([it for it in lines if it.startswith('== time: ')]), 11)
        lines, status = self.run_it('--quick')
        self.assertEqual((lines[-1], status), ('10 passed, 0 failed, 0 skipped', 0))

    def test_what_fails_and_what_is_skipped_counts(self) -> None:
        self.put_program(
            'tools/dev/test_tools',
                 'echo "skipped: test_a.B.c: no browser"; echo "5 passed, 1 failed, 3 skipped"; exit 1')
        self.put_program('tools/dev/run_cases', 'exit 1')
        self.put_program('tools/dev/spoil_bytes', 'echo "2 passed, 0 failed"; exit 3')
        lines, status = self.run_it()
        self.assertEqual((lines[-1], status), ('23 passed, 3 failed, 3 skipped', 1))

    def test_what_can_not_be_run_fails_unless_it_may_be_skipped(self) -> None:
        (self.room / 'tools/dev/refuse_memory').unlink()
        number = re.findall(r'refuse_memory program (\d+)', (TOP / 'test').read_text('utf-8'))[0]
        self.assertEqual(self.run_it()[0][-1], '20 passed, %s failed, 0 skipped' % number)
        lines, status = self.run_it('--may-skip', 'refuse_memory')
        self.assertEqual((lines[-1], status), ('20 passed, 0 failed, %s skipped' % number, 0))
        self.assertIn('== skipped: tools/dev/refuse_memory: it is not here', lines)

    def test_without_the_kit_it_says_what_was_not_checked(self) -> None:
        lines = self.run_it('--quick')[0]
        said = ' '.join(lines[next(place for place, it in enumerate(lines) if it.startswith('== not checked')):-2])
        gate = (TOP / 'test').read_text('utf-8')
        only = set(re.findall('try tools/(?:dev/)?(\\w+)', gate.partition('try tools/dev/check_module program 9')[2]))
        self.assertTrue(only | {'rt ci', 'wrong_bodies',
                                'check_module --build'} <= set(re.findall(r'[\w-]+(?: ci| --build)?', said)), said)

    def test_its_steps_end_with_it_however_it_ends(self) -> None:
        ends: list[tuple[int, list[str]]] = [(signal.SIGTERM, ['--quick']), (signal.SIGKILL, ['--quick']),
                                             (signal.SIGKILL, [])]
        for number, words in ends:
            self.put_program('tools/dev/test_tools', 'setsid "$0.below" & setsid "$0.below"')
            self.put_program('tools/dev/test_tools.below', 'echo $$ >>"%s"; %s' % (self.put('begun'), HOLDS))
            path = '%s:%s' % (self.room / 'bin', os.environ['PATH'])
            with subprocess.Popen([str(self.room / 'test'), *words], env={**os.environ, 'PATH': path},
                                  stdout=subprocess.DEVNULL, stderr=subprocess.DEVNULL) as gate:
                self.assertTrue(until(lambda: len((self.room / 'begun').read_text().splitlines()) == 2))
                gate.send_signal(number)
            processes = [Path('/proc', it) for it in (self.room / 'begun').read_text().splitlines()]
            self.assertTrue(until(lambda: not any(it.exists() for it in processes)))

    def test_without_python_and_compiler_the_steps_fail(self) -> None:
        bare = self.room / 'bare'
        bare.mkdir()
        for name in 'bash sh dirname readlink mkfifo mktemp rm sed sort wc find grep cat tail tee nproc env'.split():
            (bare / name).symlink_to(str(shutil.which(name)))
        lines, status = self.run_it('--quick', path=str(bare))
        self.assertEqual(status, 1)
        self.assertTrue(lines[-1].startswith('0 passed, '))
        self.assertIn('== tools/dev/run_cases was not run, and counts as failed: it needs Python 3.11', lines)
        lines, _ = self.run_it(path=str(bare))
        self.assertIn('== rt_ci was not run, and counts as failed: the command rt of the Rattle kit is not here', lines)
        self.assertRegex(lines[-1], r'^\d+ passed, \d+ failed, \d+ skipped$')


class Packages(Room):
    """The Debian packages that ./test installs. Debian's commands are stand-ins, and there are no steps."""

    def run_it(self, missing: str, can_install: bool, *words: str, user: int = 0) -> tuple[list[str], str]:
        """The lines before the first step, and the calls of apt-get, on a machine that lacks packages."""
        calls = self.put('calls')
        for name, text in (('dpkg-query', 'case " %s " in *" $4 "*) echo un ;; *) echo "ii " ;; esac' % missing),
                           ('id', 'echo %d' % user), ('python3', 'exit 1'),
                           ('apt-get', 'echo "$*" >>"%s"; exit %d' % (calls, not can_install))):
            self.put_program('bin/' + name, text)
        (self.room / 'tools/dev').mkdir(parents=True, exist_ok=True)
        for name in 'test', 'tools/dev/packages.txt':
            shutil.copy(TOP / name, self.room / name)
        here = {**os.environ, 'PATH': '%s:%s' % (self.room / 'bin', os.environ['PATH'])}
        done = subprocess.run([self.room / 'test', '--quick', *words], env=here, capture_output=True, text=True,
                              timeout=SECONDS)
        self.assertRegex(done.stdout.splitlines()[-1], r'^0 passed, \d+ failed, 0 skipped$')
        before = done.stdout.partition('== not checked')[0]
        return [it for it in before.splitlines() if 'not run' not in it], calls.read_text()

    def test_root_installs_what_is_missing(self) -> None:
        self.assertEqual(self.run_it('', True), ([], ''))
        lines, calls = self.run_it('mypy tcc', True)
        self.assertEqual(lines, ['== installing mypy tcc (--no-install leaves this out)'])
        self.assertEqual(calls, 'update -q\ninstall -y -q --no-install-recommends mypy tcc\n')

    def test_others_get_the_command_and_what_they_lack(self) -> None:
        for word, user in ('--quick', 1000), ('--no-install', 0):
            lines, calls = self.run_it('mypy tcc', True, word, user=user)
            self.assertIn('`apt-get install mypy tcc`', lines[0])
            self.assertEqual([it.partition(':')[0].strip() for it in lines[1:]], ['mypy', 'tcc'])
            self.assertEqual(calls, '')
        lines, _ = self.run_it('mypy', False)
        self.assertEqual(lines[1], "== mypy can't be installed: the tests that need it say so")

    def test_the_landing_calls_the_test(self) -> None:
        self.put_program('test', 'echo "./test $*"; exit 3')
        self.put('.ci/run')
        shutil.copy(TOP / '.ci/run', self.room / '.ci/run')
        done = subprocess.run([self.room / '.ci/run', '--quick'], capture_output=True, text=True, timeout=SECONDS)
        self.assertEqual((done.stdout, done.returncode), ('./test --quick\n', 3))


SOURCE = text_of('counted.py.txt')


class UnitTests(Room):
    """The counts of the tests of the tools."""

    def run_file(self, text: str, *may_skip: str, jobs: str = '0') -> tuple[list[str], int]:
        shutil.copy(TOP / 'tools/tests/conftest.py', self.room)
        self.put('test_page.py', text)
        here = {**os.environ, 'PYTHONPATH': str(TOOLS / 'tests'), 'TEST_JOBS': jobs}
        with mock.patch.object(testing, 'TESTS', self.room), mock.patch.object(testing, 'become', go_on_as):
            done = call('dev/test_tools', *('--may-skip=' + it for it in may_skip), env=here)
        return done.stdout.splitlines(), done.returncode

    def test_a_class_that_is_skipped_counts_as_all_its_tests(self) -> None:
        lines, status = self.run_file(SOURCE % 'no reason', jobs='1')
        self.assertEqual((lines[-1], status), ('1 passed, 1 failed, 3 skipped', 1))
        self.assertIn('skipped: test_page.py::Page::test_b: no reason', lines)
        self.assertIn('skipped: test_page.py::Other::test_e: no tshark', lines)
        self.assertIn('AssertionError: 1 != 2', '\n'.join(lines))

    def test_what_is_needed_and_is_not_there_fails_unless_it_may_be_skipped(self) -> None:
        self.assertEqual(self.run_file(SOURCE % 'browser: none')[0][-1], '1 passed, 3 failed, 1 skipped')
        self.assertEqual(self.run_file(SOURCE % 'browser: none', 'browser')[0][-1], '1 passed, 1 failed, 3 skipped')

    def test_a_file_that_runs_no_test_fails(self) -> None:
        for text in '', 'SyntaxError at once', 'import unittest\nclass A(unittest.TestCase): pass\n':
            lines, status = self.run_file(text)
            self.assertIn('0 passed, 1 failed, 0 skipped', lines, text)
            self.assertNotEqual(status, 0)

    def test_tests_that_are_given_up_with_their_worker_fail(self) -> None:
        def of(*names: str) -> list[Any]:
            return [SimpleNamespace(nodeid=it) for it in names]
        said, session = list[str](), SimpleNamespace(sched=SimpleNamespace(collection=['a', 'b', 'c', 'd']))
        config = SimpleNamespace(getoption=lambda name: 0,
                                 pluginmanager=SimpleNamespace(getplugin=lambda name: session))
        counts.pytest_terminal_summary(SimpleNamespace(config=config, write_line=said.append, stats={
            'passed': of('a', 'b'), 'error': of('b'), 'failed': of('c', 'c')}))
        self.assertEqual(said, ['not run: d: its worker was killed', '1 passed, 3 failed, 0 skipped'])

    def test_without_pytest_it_says_what_to_install(self) -> None:
        with mock.patch.object(testing, 'has', lambda module, python: False):
            with self.assertRaisesRegex(Fault, 'apt-get install python3-pytest'):
                testing.pytest('scope')
