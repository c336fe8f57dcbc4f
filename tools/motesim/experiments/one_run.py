"""One run of a sweep: makes the scenario, runs `motesim` on it, and measures it.

`run_job(work, job)` needs only these two and `motesim`, so it can be called in another process or on another machine.
"""
from __future__ import annotations

import hashlib
from collections.abc import Callable
from functools import partial
from pathlib import Path
from typing import NamedTuple

from motesim.experiments.doubts import of_full
from motesim.experiments.measures import Bench, name_of, read_measure, sentence_of
from motesim.cells import Cell
from motesim.faults import Fault
from motesim.judge.claims import Claims
from motesim.judge.names import Names, names_of
from motesim.judge.verdicts import decided
from motesim.plan.files import Files
from motesim.plan.plan import Plan
from motesim.plan.tables import Value
from motesim.processor_time import at_most
from motesim.report import Report
from motesim.runner.cluster import Binary
from motesim.runner.pools import fault_of
from motesim.runner.process import Limits, Runner
from motesim.report.run import ProgramFault, Run

DIGITS = 16
LONGEST_FAULT = 400


class Work(NamedTuple):
    """The data that all runs of a sweep share.

    folder   the folder of the plan
    sources  the users' files that measures need
    program, checker  `motesim` and `motecheck`
    seconds  the limit of a run, and of each measure, in processor time
    """
    plan: str
    text: str
    folder: str
    measures: tuple[str, ...]
    sources: dict[str, str]
    program: Binary
    checker: Binary
    seconds: float
    most_bytes: int


class Job(NamedTuple):
    """A run: its place in the sweep, its parameters, and the files from which its scenario is made."""
    place: int
    given: dict[str, Value]
    files: dict[str, bytes]


class Result(NamedTuple):
    """The result of a run: the measures by name, or a fault.

    note      which measures failed, and why (only their cells are empty)
    warnings  the codes of warnings
    rejected  the number of nets that were drawn before this one, and weren't connected
    The others are digests of the scenario, of the motes' places and of the report.
    """
    place: int
    measures: dict[str, Cell] = {}
    fault: str = ''
    note: str = ''
    warnings: str = ''
    rejected: int | None = None
    scenario: str = ''
    places: str = ''
    report: str = ''


def digest(data: bytes) -> str:
    """The beginning of the SHA-256."""
    return hashlib.sha256(data).hexdigest()[:DIGITS]


def not_finished(seconds: float) -> TimeoutError:
    """The fault of work that reaches its limit of processor time."""
    return TimeoutError('not finished after %g seconds of processor time' % seconds)


def reason_of(failure: BaseException) -> str:
    """The reason of a failure, in one line."""
    text = str(failure) if isinstance(failure, Fault | TimeoutError) else fault_of(failure)
    line = ' | '.join(' '.join(it.split()) for it in text.split('\n') if it.strip(' ^'))
    return line if len(line) <= LONGEST_FAULT else line[:LONGEST_FAULT] + '..'


def measured(work: Work, bench: Bench, names: Names) -> Result:
    """The measures of a run. Each measure has the same limit as the run."""
    found: dict[str, Cell] = {}
    notes: list[str] = []
    codes: dict[str, None] = {}
    for words in work.measures:
        name = name_of(words)
        try:
            with at_most(work.seconds, not_finished(work.seconds)):
                measure = read_measure(words, names, work.sources)
                found[name] = measure.of(bench)
                codes[measure.warning(bench)] = None
                if measure.is_of_arrivals:
                    codes.update(dict.fromkeys(of_full(bench.net, bench.run.report)))
        except BaseException as failure:
            # (a user's measure may raise any exception, even one that asks Python to exit)
            found[name] = None
            notes.append('%s: %s' % (name, reason_of(failure)))
    return Result(0, found, note='; '.join(notes), warnings=' '.join(filter(None, codes)))


def run_job(work: Work, job: Job) -> Result:
    """Makes a run. Errors are in the result."""
    made = Result(job.place)
    try:
        with at_most(work.seconds, not_finished(work.seconds)):
            plan = Plan(work.plan, work.text, Files(Path(work.folder), job.files))
            builder = plan.builder(job.given)
            known, text = builder.with_text()
            made = made._replace(scenario=digest(text.encode()), rejected=builder.rejected)
        limits = Limits(work.seconds, report=work.most_bytes)
        got = Runner(work.program.here(), limits).answer(text.encode())
        if got.status:
            raise ProgramFault(got.why)
        read = Report.parse(got.report)
        places = digest(repr([(it.x, it.y) for it in known.places]).encode())
        names = names_of(known)
        asked = [it for words in work.measures if (it := sentence_of(words, names))]
        bench = Bench(Run(work.plan, read, known), job.given, asked, lambda its: decided(
            Claims(known), text, its, limits, program=work.checker.here()))
        found = measured(work, bench, names)
        return made._replace(measures=found.measures, note=found.note, warnings=found.warnings, places=places,
                             report=digest(got.report))
    except BaseException as failure:
        return made._replace(fault=reason_of(failure))


def runs_of(work: Work) -> Callable[[Job], Result]:
    """The function that makes a run."""
    return partial(run_job, work)
