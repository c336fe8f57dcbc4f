"""Sweeps: what is measured, the file of results, and Ctrl-C. What the command says is in sessions/sweep.toml."""
import csv
import gc
import os
import signal
import subprocess
import sys
from collections.abc import Sequence
from pathlib import Path
from unittest import mock

import pytest
from claim_judge import deciding_by
from here import SECONDS, TOOLS, Room, rows_of, scenario_of, text_of, until
from motesim.experiments.asked import known_names, measures_of, sweep_of
from motesim.experiments.doubts import of_full
from motesim.experiments.measures import Bench, MeasureFault, read_measure, sentence_of
from motesim.experiments.one_run import Result, digest, run_job
from motesim.experiments.results import Head, Results, cell, read_results
from motesim.experiments.sweep import Sweeper
from motesim.faults import Fault
from motesim.judge.breaks import Break
from motesim.judge.claims import Claims
from motesim.judge.meaning import Sentence
from motesim.judge.names import names_of
from motesim.judge.verdicts import decided
from motesim.plan.plan import Plan
from motesim.plan.values import values_of
from motesim.report import Report
from motesim.report.run import Run
from motesim.scenario import Scenario
from sessions import TABLES, Table
from stub import judged, programs_of, write_stub

TABLE = Table(TABLES / 'sweep.toml')
MINE = TABLE.texts['mine']
SCENARIO = Scenario.parse(scenario_of('process a; code a { body { print 1; } }', (0, 0), (10, 0), (20, 0), end=20))
NAMES = names_of(SCENARIO)
REPORT = Report.parse(text_of('measured.report'))
BENCH = Bench(Run('a', REPORT, SCENARIO))


def decide(its: Sequence[Sentence]) -> list[Break | None]:
    with deciding_by(text_of('measured.report')):
        return decided(Claims(SCENARIO), SCENARIO.text, its)


@pytest.mark.parametrize('words, name, value', rows_of('measures.tsv'))
def test_what_is_measured(words: str, name: str, value: str) -> None:
    """Each measure with its name and its value for the report above, or none if it is no measure."""
    if value == '-':
        with pytest.raises(Fault):
            read_measure(words, NAMES, {'mine.py': MINE})
    else:
        measure, asked = read_measure(words, NAMES, {'mine.py': MINE}), sentence_of(words, NAMES)
        bench = Bench(BENCH.run, asked=[asked] if asked else [], decide=decide)
        assert (measure.name, measure.of(bench)) == (name or words, cell(value))


@pytest.mark.parametrize('words, code', [
    ('delivery: mote 1 prints a -> every mote prints a', 'own-message'),
    ('delivery: motes 1 and 2 print a 8 -> motes 1 and 2 print a', 'own-message'),
    *(('delivery: mote 1 prints a -> %s prints a' % it, '')
      for it in ('every mote but 1', 'some mote', 'mote 1', 'mote 2')),
    ('delivery: mote 1 prints a 9 -> every mote prints a', ''),
    ('delivery: every mote prints a -> mote 2 prints a', 'same-value'),
    ('delivery: every mote sends -> mote 2 prints a', '')])
def test_messages_that_count_wrongly_have_a_warning(words: str, code: str) -> None:
    """A mote that has to receive its own message, and sources of the same value in two motes."""
    found = read_measure(words, NAMES).warning(BENCH)
    assert (found if found in ('own-message', 'same-value') else '') == code


@pytest.mark.parametrize('words, source, said', [
    ('mine.py:wrong', MINE, 'wrong of mine.py: line 8: ZeroDivisionError: division by zero'),
    ('mine.py:listed', MINE, 'must return a number'), ('mine.py:x', 'def :', 'mine.py: line 1: SyntaxError'),
    *(('mine.py:a', 'def a(run):\n    return %s\n' % it, 'a returns -?(nan|inf)') for it in (
        'float("nan")', 'float("inf")', '-1e999'))])
def test_a_function_that_fails_is_told_with_its_line(words: str, source: str, said: str) -> None:
    with pytest.raises(Fault, match=said):
        read_measure('python: ' + words, NAMES, {'mine.py': source}).of(BENCH)


@pytest.mark.parametrize('words, seen', [
    ('rato', 'did you mean ratio'),
    ('moment: at least 2 motes print a', 'has no moment'),
    ('motes: every mote finally prints a 4', 'Write `every mote prints a 4`')])
def test_the_measure_that_was_meant_is_named(words: str, seen: str) -> None:
    with pytest.raises(MeasureFault, match=seen):
        read_measure(words, NAMES)


def test_a_function_of_two_arguments_gets_the_parameters_of_the_run() -> None:
    sources = {'m.py': 'def both(run, its):\n    return its.pop("period") * run.scenario.motes\n'
                       'def old(run, cost=5, *more):\n    return cost + len(more)\n'}
    it = Bench(BENCH.run, {'period': 4})
    assert [read_measure('python: m.py:both', NAMES, sources).of(it) for _ in range(2)] == [12, 12]
    assert read_measure('python: m.py:old', NAMES, sources).of(it) == 5


@pytest.mark.parametrize('text, values', [
    ('10,20, 40', [10, 20, 40]), ('1..3,7', [1, 2, 3, 7]), ('-10..10..10', [-10, 0, 10]),
    ('true,a b,007', [True, 'a b', '007']),
    ('3..1', None), ('1,1', None), ('1,,2', None), ('1..3..0', None)])
def test_values(text: str, values: list[object] | None) -> None:
    if values is None:
        with pytest.raises(Fault):
            values_of(text)
    else:
        assert values_of(text) == values


def test_cells_keep_their_text() -> None:
    for text, value in ('7', 7), ('-7', -7), ('007', '007'), ('0.25', 0.25), ('0.50', '0.50'), ('', None):
        assert cell(text) == value


@pytest.mark.parametrize('ring, refused, event, codes', [
    (0, 0, 'packet 5', []), (1, 0, 'packet 5', ['receiver-full']), (1, 1, 'packet 5', ['receiver-full', 'queue-full']),
    (0, 1, 'msg 5', [])])
def test_copies_and_packets_without_room_are_reported(ring: int, refused: int, event: str, codes: list[str]) -> None:
    report = Report.parse('mote 0 p\n0 start a\n2 full a %s\nmedium\nleft 0\n' % event)
    assert list(of_full({'overflowed': ring, 'refused': refused}, report)) == codes


class Bed(Room):
    """A folder with a plan and a program that answers short reports."""

    def setUp(self) -> None:
        super().setUp()
        self.stub = write_stub(self.room)
        TABLE.write(self.room, TABLE.files)

    def sweep(self, *words: str, **more: str) -> subprocess.CompletedProcess[str]:
        with judged():
            return self.tool('sweep', 'net.plan.toml', *words, **programs_of(self.stub), **more)

    def rows(self, name: str = 'net.csv') -> list[dict[str, str]]:
        with open(self.room / name, newline='') as file:
            file.readline()
            return list(csv.DictReader(file))

    words = ('--param', 'period=1..3', '--param', 'motes=2,3', '--measure', 'end = last: every mote prints a',
             '--measure', 'prints')


class SweepTest(Bed):
    def test_half_a_row_is_run_again_and_digests_name_what_made_a_row(self) -> None:
        self.sweep(*self.words)
        path = self.room / 'net.csv'
        before, rows = path.read_bytes(), self.rows()
        # (as of a machine that lost its power)
        lines = before.split(b'\n')
        path.write_bytes(b'\n'.join(lines[:4]) + b'\n' + lines[4][:9])
        self.assertIn('4 of them now', self.sweep(*self.words, '--jobs', '1').stdout)
        self.assertEqual(path.read_bytes(), before)
        self.assertEqual(read_results(path)[0].motesim_sha256, digest(self.stub.read_bytes()))
        self.assertTrue(all(len(row[name]) == 16 for row in rows for name in row if name.endswith('sha256')))
        self.assertEqual([len({row[it] for row in rows}) for it in ('scenario_sha256', 'places_sha256')], [6, 2])
        self.stub.write_text(self.stub.read_text() + '# another\n')
        self.assertIn('rows from before a change of motesim', self.sweep(*self.words).stderr)

    def result_of_one(self, vary: str, measure: str, number: int = 0, seconds: float | None = None) -> Result:
        """The result of one of a sweep's runs, which this process makes without the files of the plan."""
        with mock.patch.dict(os.environ, programs_of(self.stub)), mock.patch('motesim.runner.process.PATIENCE', 10_000):
            plan = Plan.read(self.room / 'net.plan.toml')
            sweeper = Sweeper(sweep_of(plan, [vary], [measure], seconds), self.room / 'a.csv')
            return run_job(sweeper.work()._replace(folder='/nowhere'), next(sweeper.jobs([number])))

    def test_the_limit_of_a_run_is_processor_time(self) -> None:
        self.put('burn.mote', TABLE.texts['mote'] + '// burn\n')
        self.assertEqual(self.result_of_one('name=a,burn', 'prints', 1, 0.5).fault,
                         'no answer in 0.5 seconds of processor time')

    def test_a_job_takes_the_files_along_and_leaves_the_search_for_cycles_as_it_was(self) -> None:
        gc.enable()
        result = self.result_of_one('period=3', 'python: mine.py:lines')
        self.assertEqual((result.measures, result.fault, gc.isenabled()), ({'lines': 15}, '', True))

    def test_the_order_of_the_values_does_not_decide_which_measures_are_refused(self) -> None:
        TABLE.write(self.room, {'bee.mote': '{{bee}}', 'net.plan.toml': ['plan', '[places]', 'seed = 1\n[places]']})
        plan = Plan.read(self.room / 'net.plan.toml')
        # (the last sweep has more runs than are tried)
        for parameter, values, measure, more in rows_of('orders_of_values.tsv'):
            for listed in values, ','.join(reversed(values.split(','))):
                sweep = sweep_of(plan, ['%s=%s' % (parameter, listed), more], [measure], None)
                self.assertEqual(list(measures_of(sweep, known_names(sweep), {})), ['x'])

    def test_ctrl_c_keeps_what_is_finished(self) -> None:
        self.put('wait.mote', TABLE.texts['mote'] + '// wait\n')
        # (the worker has at most four runs at a time, so that the last one doesn't begin)
        words = '--param', 'name=a,wait', '--param', 'motes=1..4', '--measure', 'prints', '--jobs', '1'
        with subprocess.Popen([sys.executable, '-B', TOOLS / 'sweep', 'net.plan.toml', *words], cwd=self.room,
                              env={**os.environ, **programs_of(self.stub)}, stdout=subprocess.PIPE,
                              stderr=subprocess.PIPE, text=True, start_new_session=True) as run:
            self.assertTrue(until(lambda: (self.room / 'net.csv').exists() and len(self.rows()) >= 4))
            os.killpg(run.pid, signal.SIGINT)
            self.stub.with_name('stub.go').touch()
            out, seen = run.communicate(timeout=SECONDS)
        self.assertEqual((run.returncode, out), (130, ''), seen)
        # (a slow machine also writes lines of progress)
        self.assertRegex(seen, r'^(?:\d of 8 runs, .*\n)*sweep: stopped with [1-3] runs missing; the same command '
                               r'continues\n$')
        self.assertEqual(sorted(row['prints'] for row in self.rows() if row['name'] == 'a'), ['1', '2', '3', '4'])

    def test_results_that_cannot_be_written_are_named(self) -> None:
        head = Head('a', ['x'], {'sent': 'sent'}, {}, '1', 'a', '')
        results = Results(self.room / 'x.csv', head)
        self.addCleanup(results.close)
        with mock.patch.object(results, 'file', mock.Mock(write=mock.Mock(side_effect=OSError(28, 'no space')))):
            with self.assertRaisesRegex(Fault, '/x.csv: no space$'):
                results.add({'x': 1})
        for path in self.put('mine.txt', 'a diary'), self.put('old.csv', 'period,sent\n'), Path('/dev/null'):
            before = path.read_text()
            with self.assertRaisesRegex(Fault, 'isn.t a file'):
                Results(path, head)
            self.assertEqual(path.read_text(), before)

    def test_two_sweeps_do_not_write_one_file(self) -> None:
        head = Head('a', ['x'], {'sent': 'sent'}, {}, '1', 'a', '')
        file = Results(self.room / 'both.csv', head)
        for _ in range(2):
            with self.assertRaisesRegex(Fault, 'another sweep'):
                Results(self.room / 'both.csv', head)
            file.write([{'x': 1, 'sent': 2}])
        file.close()
        again = Results(self.room / 'both.csv', head)
        self.assertEqual([(row['x'], row['sent']) for row in again.rows], [(1, 2)])
        again.close()
