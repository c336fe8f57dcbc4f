"""Runs within limits, answers that are kept, and many pieces of work by worker processes."""
import contextlib
import math
import os
import shutil
import signal
import subprocess
import sys
import tempfile
import threading
import unittest
from collections.abc import Callable, Generator, Iterable, Iterator
from pathlib import Path
from typing import Any
from unittest import mock

from here import HOLDS, SECONDS, TOOLS, Room, scenario_of, until
from motesim.faults import Fault
from motesim.runner import Done, LimitMet, Limits, NoReport, ProgramFault, Runner, Stopped, ending, pool
from motesim.runner.module import script_of
from skips import need
from unbuilt_tree import is_alive

SMALL = scenario_of('process a; autostart a; code a { body { print 1; print 2; } }').encode()

class Programs(Room):
    def program(self, text: str, shell: str = '/bin/sh') -> Path:
        return self.put_program('program', text, shell)


class Runs(Programs):
    def test_an_answer_has_status_report_and_fault(self) -> None:
        runner = Runner(self.program('cat; echo "$@" >&2; exit 3'))
        self.assertEqual(runner.answer(b'abc', '--workers', '2'), (3, b'abc', b'--workers 2\n'))

    def test_a_long_scenario_and_a_long_report_pass(self) -> None:
        data = b'x' * 5_000_000
        self.assertEqual(Runner(self.program('cat')).report(data), data)
        # (one that is not read is not a fault)
        self.assertEqual(Runner(self.program('echo done')).report(data), b'done\n')

    def test_a_refused_scenario_has_no_report(self) -> None:
        with self.assertRaisesRegex(NoReport, '^the scenario has no report: motesim: no$'):
            Runner(self.program('echo motesim: no >&2; exit 1')).report(b'')
        with self.assertRaisesRegex(NoReport, 'status -15'):
            Runner(self.program('kill -15 $$')).report(b'')

    @mock.patch('motesim.runner.process.PATIENCE', 1)
    def test_a_run_ends_at_its_time_with_all_that_it_started(self) -> None:
        # (the shell ends at once by the signal, its child would hold the pipes)
        noted = self.room / 'program.child'
        runner = Runner(self.program('(%s) & echo $! > "$0.child"; wait' % HOLDS), Limits(seconds=0.3))
        with self.assertRaisesRegex(LimitMet, '^no answer in 0.3 seconds$') as met:
            runner.answer(b'')
        self.assertEqual(met.exception.limit, 'clock')
        # (a slow machine may not have begun it)
        if noted.exists() and (child := noted.read_text()):
            self.assertTrue(until(lambda: not is_alive(int(child))))

    def test_what_outlives_the_program_holds_nothing_up(self) -> None:
        self.assertEqual(Runner(self.program('(%s) & echo done' % HOLDS)).report(b''), b'done\n')

    def test_a_report_that_is_too_long_ends_the_run(self) -> None:
        with self.assertRaisesRegex(LimitMet, '^the report is longer than 100,000 bytes$') as met:
            Runner(self.program('yes'), Limits(report=100_000)).answer(b'')
        self.assertEqual(met.exception.limit, 'report')
        self.assertEqual(len(Runner(self.program('head -c 100000 /dev/zero'), Limits(report=100_000)).report(b'')),
                         100_000)

    def test_a_fault_without_an_end_is_cut(self) -> None:
        with self.assertRaises(LimitMet):
            Runner(self.program('yes >&2'), Limits(seconds=0.3)).answer(b'')
        self.assertEqual(len(Runner(self.program('head -c 1000000 /dev/zero >&2')).answer(b'').fault), 1 << 16)

    def test_a_run_that_takes_too_much_memory_ends(self) -> None:
        text = 'import signal\nkept = bytearray(300 << 20)\nkept[::4096] = kept[::4096]\nsignal.pause()'
        with self.assertRaisesRegex(LimitMet, '^the run needs more than 100 megabytes of memory$') as met:
            Runner(self.program(text, sys.executable), Limits(SECONDS, 100 << 20)).answer(b'')
        self.assertEqual(met.exception.limit, 'memory')

    def test_each_run_has_limits_that_leave_the_machine_alive(self) -> None:
        physical = os.sysconf('SC_PHYS_PAGES') * os.sysconf('SC_PAGE_SIZE')
        self.assertLessEqual(Limits().memory, physical // 2)
        self.assertEqual((Limits().seconds, Limits().report), (600, 1 << 30))

    def test_another_thread_stops_a_run(self) -> None:
        running = Runner(self.program(HOLDS)).start(b'')
        threading.Thread(target=running.stop).start()
        with self.assertRaises(Stopped):
            running.wait()

    def test_stopping_a_run_that_has_ended_changes_nothing(self) -> None:
        running = Runner(self.program('echo done')).start(b'')
        self.assertEqual(running.wait().report, b'done\n')
        running.stop()

    def test_a_signal_that_ends_a_tool_ends_its_run(self) -> None:
        program = self.program('echo $$ > "$0.pid"; ' + HOLDS)
        noted, words = self.room / 'program.pid', [sys.executable, '-B', str(TOOLS / 'summary'), 'a.toml']
        (self.room / 'a.toml').write_text(scenario_of('process a; code a { body { print 1; } }'))
        for number, status in (signal.SIGTERM, -signal.SIGTERM), (signal.SIGHUP, -signal.SIGHUP), (signal.SIGINT, 130):
            with self.subTest(number), subprocess.Popen(
                    words, cwd=self.room, env={**os.environ, 'MOTESIM': str(program)}, stdout=subprocess.DEVNULL,
                    stderr=subprocess.PIPE, start_new_session=True) as tool:
                self.assertTrue(until(lambda: noted.is_file() and noted.read_text().endswith('\n')))
                run = int(noted.read_text())
                noted.unlink()
                self.assertNotEqual(os.getpgid(run), os.getpgid(tool.pid))
                os.killpg(tool.pid, number)
                said = tool.communicate(timeout=SECONDS)[1]
                is_over = until(lambda: not is_alive(run))
                if not is_over:
                    os.kill(run, signal.SIGKILL)
                self.assertEqual((is_over, tool.returncode, said), (True, status, b''))

    def test_once_no_run_is_left_a_signal_has_its_own_effect_again(self) -> None:
        def handlers() -> list[object]:
            return [signal.getsignal(it) for it in (signal.SIGTERM, signal.SIGHUP)]
        before = handlers()
        running = [Runner(self.program(HOLDS)).start(b'') for _ in range(2)]
        during = handlers()
        for one in running:
            one.stop()
            with self.assertRaises(Stopped):
                one.wait()
        self.assertTrue(all(it in (old, ending._end) for it, old in zip(during, before)))
        self.assertEqual(handlers(), before)
        # (a handler of the tool itself stays)
        mine = signal.signal(signal.SIGTERM, lambda number, frame: None)
        self.addCleanup(signal.signal, signal.SIGTERM, mine)
        its = signal.getsignal(signal.SIGTERM)
        self.assertEqual(Runner(self.program('echo done')).report(b''), b'done\n')
        self.assertIs(signal.getsignal(signal.SIGTERM), its)

    def test_a_program_that_is_not_there_or_can_not_be_run(self) -> None:
        for path in self.room / 'none', self.room:
            with self.assertRaisesRegex(ProgramFault, "can't be run: "):
                Runner(path).answer(b'')
        with self.assertRaisesRegex(ProgramFault, "can't be run: "):
            Runner(self.program('true')).answer(b'', 'a\0b')


# Motes that have a turn in each moment, for many seconds.
ENDLESS = scenario_of('process a; autostart a; '
                      'code a { etimer t; body { while 1 { set t 1; yield_until fired(t); } } }',
                      *[(100 * it, 0) for it in range(50)], end=1_000_000).encode()
LONG = ENDLESS.replace(b'end = 1000000', b'end = 2000')


class Modules(unittest.TestCase):
    """Runs of the modules, in one process of node."""

    def setUp(self) -> None:
        need('node', 'nodejs')
        self.runner = Runner(script_of('motesim'), Limits(seconds=30.0))

    def host(self) -> int:
        running = self.runner.start(SMALL)
        self.assertEqual(running.wait().status, 0)
        return running.pid

    def test_one_process_makes_all_runs_with_the_answers_of_the_scripts(self) -> None:
        host, checker = self.host(), Runner(script_of('motecheck'))
        claims = b'mote 0: at least 2 lines "print process a"'
        runs: list[tuple[Runner, bytes, tuple[str, ...], dict[str, bytes]]] = [
                (self.runner, SMALL, (), {}), (self.runner, b'end = ', (), {}),
                (self.runner, SMALL, ('--workers',), {}),
                (checker, SMALL, ('/dev/stdin', 'claims'), {'claims': claims}),
                (checker, SMALL, ('--links', '/dev/stdin', 'claims'), {'claims': claims}),
                (checker, SMALL, ('/dev/stdin', 'none'), {}), (checker, SMALL, ('--runs', '2', '/dev/stdin', 'a'), {})]
        for runner, scenario, words, files in runs:
            running = runner.start(scenario, *words, files=files)
            got = running.wait()
            with tempfile.NamedTemporaryFile() as file:
                file.write(b''.join(files.values()))
                file.flush()
                alone = subprocess.run([str(runner.program), *(file.name if it in files else it for it in words)],
                                       input=scenario, capture_output=True)
            with self.subTest(words=words):
                self.assertEqual(got, (alone.returncode, alone.stdout, alone.stderr))
                self.assertEqual(running.pid, host)

    def test_a_limit_or_a_stop_ends_one_run_and_the_next_has_a_process_again(self) -> None:
        for limits, scenario in (Limits(seconds=0.2), ENDLESS), (Limits(report=10_000), LONG):
            with self.assertRaises(LimitMet) as met:
                Runner(script_of('motesim'), limits).answer(scenario)
            self.assertEqual(met.exception.limit, 'report' if scenario == LONG else 'seconds')
            self.host()
        running = self.runner.start(ENDLESS)
        threading.Thread(target=running.stop).start()
        with self.assertRaises(Stopped):
            running.wait()
        self.host()

    def test_a_process_that_dies_costs_one_run(self) -> None:
        running = self.runner.start(ENDLESS)
        os.kill(running.pid, signal.SIGKILL)
        self.assertEqual(running.wait().status, -signal.SIGKILL)
        # (one that dies between two runs costs none)
        idle = self.host()
        os.kill(idle, signal.SIGKILL)
        os.waitid(os.P_PID, idle, os.WEXITED | os.WNOWAIT)
        self.host()

    def test_stopping_a_run_that_has_ended_leaves_the_process(self) -> None:
        running = self.runner.start(SMALL)
        running.wait()
        running.stop()
        self.assertEqual(self.host(), running.pid)

    def test_the_scripts_of_another_tree_have_a_process_of_their_own(self) -> None:
        with tempfile.TemporaryDirectory() as folder:
            there = Runner(Path(shutil.copytree(script_of('motesim').parent, folder, dirs_exist_ok=True)) / 'motesim')
            pids = set[int]()
            for runner in there, self.runner, there, self.runner:
                running = runner.start(SMALL)
                self.assertEqual(running.wait().report, self.runner.report(SMALL))
                pids.add(running.pid)
            self.assertEqual(len(pids), 2)

    def test_a_node_that_can_not_run_it_is_told(self) -> None:
        with tempfile.TemporaryDirectory() as folder, mock.patch.dict(os.environ):
            old = Path(folder) / 'node'
            old.write_text('#!/bin/sh\nhead -c 20 >/dev/null\nexit 1\n')
            old.chmod(0o755)
            os.environ['PATH'] = folder + os.pathsep + os.environ['PATH']
            web = Path(shutil.copytree(script_of('motesim').parent, Path(folder) / 'web'))
            self.assertEqual(Runner(web / 'motesim').answer(b''), (
                1, b'', b'motesim: node ended without an answer; the module needs node 18 or newer'))

    def test_a_long_report_passes(self) -> None:
        report = Runner(script_of('motesim')).report(LONG)
        self.assertEqual(report.count(b' a timer 0\n'), 50 * 2000)


@contextlib.contextmanager
def beside() -> Iterator[None]:
    """A block beside which another thread goes on."""
    end = threading.Event()
    thread = threading.Thread(target=end.wait)
    thread.start()
    try:
        yield
    finally:
        end.set()
        thread.join()


def squared(item: int) -> int:
    return item * item


def itself(work: Any) -> Any:
    return work


def run_each(work: Callable[[Any], Any], items: Iterable[Any], processes: int,
             is_over: Callable[[], bool] = lambda: False, seconds: float = math.inf
             ) -> Generator[Done[Any, Any], None, None]:
    """The results of work that one pool does for one series of items."""
    with pool(itself, work, processes, seconds=seconds) as workers:
        yield from workers.results(items, is_over)


class Batches(Programs):
    def test_each_item_has_its_result(self) -> None:
        for processes, count in (1, 200), (3, 200), (2, 0):
            found = list(run_each(squared, range(count), processes))
            self.assertEqual(sorted((it.item, it.result, it.fault) for it in found),
                             [(n, n * n, '') for n in range(count)])

    def test_whatever_an_item_raises_is_its_fault(self) -> None:
        def work(item: int) -> object:
            if item == 1:
                raise Fault('in a line')
            if item == 2:
                raise ValueError('of two\nlines')
            if item == 3:
                sys.exit(4)
            if item == 4:
                raise MemoryError
            if item == 5:
                return lambda: None
            if item == 6:
                return [10] * 10 ** 15
            return item
        found = {it.item: it.fault for it in run_each(work, range(9), 2)}
        self.assertEqual([found[it] for it in (0, 1, 2, 3, 4, 6, 7, 8)], ['', 'in a line', 'ValueError: of two lines',
            'SystemExit: 4', 'out of memory', 'out of memory', '', ''])
        self.assertIn('pickle', found[5])

    def test_what_catches_everything_is_ended_at_its_time_and_the_others_go_on(self) -> None:
        def work(item: int) -> int:
            while item == 3:
                with contextlib.suppress(BaseException):
                    signal.pause()
            return item
        found, clock = {}, mock.Mock(monotonic=mock.Mock(return_value=0))
        with mock.patch('motesim.runner.workers.time', clock):
            for it in run_each(work, range(40), 2, seconds=9):
                found[it.item] = it.result, it.fault
                # (all others are done)
                clock.monotonic.return_value = 10 * (len(found) == 39)
        self.assertEqual(found, {n: (n, '') if n != 3 else (None, 'not finished after 9 seconds') for n in range(40)})

    def test_a_worker_that_dies_costs_one_item(self) -> None:
        def work(item: int) -> int:
            if item in (0, 21, 39):
                os.kill(os.getpid(), signal.SIGKILL)
            return item
        found = {it.item: it.fault for it in run_each(work, range(40), 2)}
        self.assertEqual(sorted(found), list(range(40)))
        self.assertEqual([n for n, fault in found.items() if fault], sorted([0, 21, 39], key=list(found).index))
        self.assertIn('ended by the system', found[21])

    def test_workers_do_one_series_after_another(self) -> None:
        def work(item: int) -> tuple[int, int]:
            return item, os.getpid()
        with pool(itself, work, 2) as workers:
            first, second = ([done.result for done in workers.results(range(count)) if done.result] for count in (9, 5))
        self.assertEqual([sorted(it for it, _ in its) for its in (first, second)], [[*range(9)], [*range(5)]])
        self.assertLessEqual({pid for _, pid in second}, {pid for _, pid in first})

    def test_large_items_and_results_pass(self) -> None:
        found = list(run_each(lambda it: it + it, [b'x' * 3_000_000] * 8, 2))
        self.assertEqual([len(it.result or b'') for it in found], [6_000_000] * 8)

    def test_items_are_read_as_workers_become_free(self) -> None:
        given = []

        def items() -> Iterator[int]:
            for number in range(1_000_000):
                given.append(number)
                yield number

        with contextlib.closing(run_each(squared, items(), 2)) as found:
            for _ in range(20):
                next(found)
        self.assertLess(len(given), 200)

    def test_leaving_the_loop_ends_the_workers_and_their_runs(self) -> None:
        program = self.program('echo $$ > "%s/$$.run"; %s' % (self.room, HOLDS))

        def work(item: int) -> int:
            if item == 0:
                return os.getpid()
            return Runner(program).answer(b'').status
        with contextlib.closing(run_each(work, range(9), 2)) as found:
            next(found)
            self.assertTrue(until(lambda: len(list(self.room.glob('*.run'))) == 2))
        for path in self.room.glob('*.run'):
            self.assertTrue(until(lambda: not is_alive(int(path.stem))))

    def test_stop_begins_nothing_more(self) -> None:
        found: list[int | None] = []
        for done in run_each(squared, range(1000), 2, lambda: bool(found)):
            found.append(done.result)
        self.assertLess(len(found), 10)
        self.assertEqual(list(run_each(squared, range(9), 1, lambda: True)), [])

    def test_work_that_can_not_be_prepared_is_the_fault_of_each_item(self) -> None:
        def unprepared(shared: str) -> Callable[[int], int]:
            raise Fault(shared)
        with pool(unprepared, 'not ready', 2) as workers:
            faults = [it.fault for it in workers.results(range(3))]
        self.assertEqual(faults, ['not ready'] * 3)

    def test_items_that_fail_end_the_loop_with_their_fault(self) -> None:
        def items() -> Iterator[int]:
            yield 1
            raise Fault('no more')
        with self.assertRaisesRegex(Fault, 'no more'):
            list(run_each(squared, items(), 2))

    def test_ctrl_c_is_for_the_tool_alone(self) -> None:
        # (once one has its result, both workers have begun)
        source = ('import multiprocessing, signal, sys; sys.path.insert(0, %r)\n' 'from motesim.runner import pool\n'
                  'both = multiprocessing.Barrier(2)\n' 'try:\n'
                  '    with pool(lambda it: it, lambda it: both.wait() if it < 2 else signal.pause(), 2) as workers:\n'
                  '        for done in workers.results(range(9)):\n            print("one", flush=True)\n' 'except '
                  'KeyboardInterrupt:\n    print("stopped")\n' % str(TOOLS))
        with subprocess.Popen([sys.executable, '-B', '-c', source], stdout=subprocess.PIPE, stderr=subprocess.PIPE,
                              start_new_session=True, text=True) as ran:
            assert ran.stdout
            ran.stdout.readline()
            os.killpg(ran.pid, signal.SIGINT)
            said, fault = ran.communicate(timeout=SECONDS)
        self.assertEqual((said.splitlines()[-1], fault, ran.returncode), ('stopped', '', 0))

    def test_with_threads_about_workers_are_not_forked(self) -> None:
        with beside():
            self.assertEqual(sorted(it.result or 0 for it in run_each(math.isqrt, [1, 4], 1)), [1, 2])
