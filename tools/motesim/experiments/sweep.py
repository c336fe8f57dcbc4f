"""Runs a plan with many values of its parameters, and saves the measures. tools/sweep is the command."""
from __future__ import annotations

import argparse
import contextlib
import sys
import time
from collections import Counter
from collections.abc import Iterable, Iterator, Mapping, Sequence
from pathlib import Path

from motesim import packages
from motesim.experiments.asked import Sweep, known_names, measures_of, sweep_of, unused
from motesim.experiments.doubts import MEANINGS
from motesim.experiments.measures import file_of
from motesim.experiments.one_run import DIGITS, Job, Result, Work, digest
from motesim.cells import text_of
from motesim.experiments.results import Head, Results, Row
from motesim.experiments.runs import Stopped, results_of
from motesim.faults import INTERRUPTED, Fault
from motesim.files import refuse_inputs
from motesim.output import beside
from motesim.own_code import sources_of
from motesim.plan.plan import UNUSED, Plan
from motesim.plan.tables import Value, text_of_value, value_of_text
from motesim.progress import Progress, clock
from motesim.runner.cluster import Binary
from motesim.runner.programs import CHECKER, PROGRAM, program_path
from motesim.runner.versions import kit_version, program_digest, program_version
from motesim.scenario.encodings import read_file


class Sweeper:
    """A sweep with its results.

    rows    the rows of the sweep that exist, by their places in its order
    others  the rows of the file with other values
    """

    def __init__(self, sweep: Sweep, path: Path) -> None:
        self.sweep, self.plan, self.path = sweep, sweep.plan, path
        self.sources = sources_of({file_of(it) for it in sweep.measures} - {''}, self.plan.files.folder, read_file)
        self.program = program_path().resolve()
        self.head = Head(
            self.plan.name, list(self.plan.parameters), measures_of(sweep, known_names(sweep), self.sources),
            {name: digest(text.encode()) for name, text in sorted(self.sources.items())},
            program_version(self.program), program_digest(self.program), kit_version(self.program))
        self.rows: dict[int, Row] = {}
        self.others: list[Row] = []

    def open(self) -> None:
        self.file = Results(self.path, self.head)

    def changed(self, row: Row) -> str:
        """What has changed since a row was made, or an empty text."""
        before = self.file.found
        if before.motesim_sha256 != self.head.motesim_sha256:
            return 'motesim'
        if (before.measures, before.files) != (self.head.measures, self.head.files):
            return 'a measure'
        given = {name: value_of_text(text_of(row[name])) for name in self.plan.parameters}
        with contextlib.suppress(Fault):
            if row['plan_sha256'] == self.plan.digest(given)[:DIGITS]:
                return ''
        return 'the plan or a file next to it'

    def keep(self, is_renewed: bool, retries: bool) -> None:
        """Reads the rows of the file. Rows from before a change are an error, or are made again if this sweep has their
        values."""
        for row in self.file.rows:
            place, change = self.sweep.place_of(row), self.changed(row)
            if change and (place is None or not is_renewed):
                raise Fault('%s has rows from before a change of %s: %s' % (
                    self.path, change, 'name another file with -o, or vary all values of the file' if is_renewed else
                    '--renew makes them again, and -o names another file'))
            if place is None:
                self.others.append(row)
            elif not change and not (retries and (row['error'] or row['note'])):
                self.rows[place] = row
        if len(self.rows) + len(self.others) < len(self.file.rows) or self.file.found != self.head:
            self.write()

    def write(self) -> None:
        """Writes all rows, in the order of the sweep, and then the others."""
        self.file.write([*(self.rows[place] for place in sorted(self.rows)), *self.others])

    def missing(self) -> list[int]:
        """The places of the missing runs."""
        return [place for place in range(self.sweep.runs()) if place not in self.rows]

    def work(self) -> Work:
        return Work(self.plan.name, self.plan.text, str(self.plan.files.folder.resolve()), tuple(self.sweep.measures),
                    self.sources, Binary.of(PROGRAM), Binary.of(CHECKER), self.sweep.seconds, self.sweep.most_bytes)

    def jobs(self, places: Iterable[int]) -> Iterator[Job]:
        """The jobs for these places; each is made when its run begins."""
        for place in places:
            given = self.sweep.run_at(place)
            yield Job(place, given, self.files(given))

    def files(self, given: Mapping[str, Value]) -> dict[str, bytes]:
        """The files that a run needs. One that can't be read is an error of the run, which reports it."""
        found: dict[str, bytes] = {}
        with contextlib.suppress(Fault):
            for name in self.plan.used_files(given):
                with contextlib.suppress(Fault, ValueError):
                    found[name] = self.plan.files.read(name)
        return found

    def row(self, result: Result) -> Row:
        given = self.sweep.run_at(result.place)
        parameters = {name: text_of_value(value) if type(value) is bool else value for name, value in given.items()}
        plan = ''
        with contextlib.suppress(Fault):
            plan = self.plan.digest(given)[:DIGITS]
        return {**parameters, **dict.fromkeys(self.head.measures), **result.measures, 'error': result.fault or None,
                'note': result.note or None, 'warnings': result.warnings or None, 'rejected': result.rejected,
                'plan_sha256': plan or None, 'scenario_sha256': result.scenario or None,
                'places_sha256': result.places or None, 'report_sha256': result.report or None}

    def run(self, processes: int, address: str | None) -> int:
        """Makes the missing runs; returns their number."""
        missing = self.missing()
        if not missing:
            return 0
        jobs, work, progress, made, failed = self.jobs(missing), self.work(), Progress(), 0, 0
        try:
            for result in results_of(jobs, work, min(processes, len(missing)), address):
                self.rows[result.place] = self.row(result)
                self.file.add(self.rows[result.place])
                made, failed = made + 1, failed + bool(result.fault)
                if progress.is_due():
                    left = (time.monotonic() - progress.begun) / made * (len(missing) - made)
                    progress.show('%d of %d runs, %d with an error, %s left' % (
                        made, len(missing), failed, clock(left)))
        finally:
            progress.end()
        self.write()
        return len(missing)


def always_empty(rows: Sequence[Row], measures: Iterable[str]) -> list[str]:
    """The measures that no run has, although some runs have neither an error nor a failure of a measure."""
    if all(row['error'] or row['note'] for row in rows):
        return []
    return [name for name in measures if not any(text_of(row[name]) for row in rows)]


def said(sweeper: Sweeper, ran: int) -> int:
    """Reports the contents of the file; returns the status."""
    rows = [sweeper.rows[place] for place in sorted(sweeper.rows)]
    faults, notes = ([row for row in rows if row[name]] for name in ('error', 'note'))
    print('%s: %d runs, %d of them now, %d with an error' % (sweeper.path, len(rows), ran, len(faults)))
    if faults:
        print('the first error: %s' % faults[0]['error'])
    if notes:
        print('%d of %d runs lack a measure; the first: %s' % (len(notes), len(rows), notes[0]['note']))
    for name in always_empty(rows, sweeper.head.measures):
        print('sweep: warning: %s is empty in each run without an error: no run has the lines that `%s` needs' % (
            name, sweeper.head.measures[name]), file=sys.stderr)
    codes = Counter(code for row in rows for code in text_of(row['warnings']).split())
    for code, count in codes.items():
        print('sweep: warning: %s, in %d of %d runs: %s' % (code, count, len(rows), MEANINGS[code]), file=sys.stderr)
    return 1 if faults or notes else 0


def name_of_results(plan: str) -> str:
    """The name of a file of results, if the command names none."""
    return Path(plan).name.removesuffix('.toml').removesuffix('.plan') + '.csv'


def sweeper_of(asked: argparse.Namespace) -> Sweeper:
    """The sweep of a command, with the file of its results."""
    sweep = sweep_of(Plan.read(asked.plan), asked.param, asked.measure, asked.seconds)
    sweep.most_bytes = asked.report << 20
    output = Path(asked.output) if asked.output else beside(asked.plan, name_of_results(asked.plan))
    of_measures = [sweep.plan.files.folder / it for it in map(file_of, sweep.measures) if it]
    refuse_inputs(output, [*sweep.plan.paths(sweep.run_at(0)), *of_measures])
    return Sweeper(sweep, output)


def status_of(asked: argparse.Namespace, sweeper: Sweeper) -> int:
    """The work of tools/sweep; returns the status."""
    if asked.dask:
        packages.need('distributed')
    sweeper.open()
    try:
        sweeper.keep(asked.renew, asked.retry)
        for name in unused(sweeper.sweep):
            print('sweep: warning: %s' % UNUSED % (name, name), file=sys.stderr)
        return said(sweeper, sweeper.run(asked.jobs, asked.dask))
    except Stopped:
        print('sweep: stopped with %d runs missing; the same command continues' % len(sweeper.missing()),
              file=sys.stderr)
        return INTERRUPTED
    finally:
        sweeper.file.close()
