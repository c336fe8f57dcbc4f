"""Has processes of this machine or a Dask cluster make the runs of a sweep."""
from __future__ import annotations

from collections.abc import Generator, Iterable

from motesim.experiments.one_run import Job, Result, Work, runs_of
from motesim.runner import Limits, pool
from motesim.runner.interrupt import Break

# A job has limits of processor time: for the scenario, for the run and for each measure. If it still runs after the
# time that these limits allow, and these seconds more, its process is ended.
SECONDS_MORE = 5


class Stopped(Exception):
    """Ctrl-C was pressed: the jobs that had begun have ended, and no others were begun."""


def longest(work: Work) -> float:
    """The limit on the clock, in seconds, of one job."""
    return Limits(work.seconds).clock * (2 + len(work.measures)) + SECONDS_MORE


def results_of(jobs: Iterable[Job], work: Work, processes: int, address: str | None) -> Generator[Result, None, None]:
    """The results of the jobs, in the order in which they end. A job that lasts too long is ended with its process, and
    its result is a fault."""
    left = iter(jobs)
    with Break() as stop, pool(runs_of, work, processes, address, longest(work)) as workers:
        for done in workers.results(left, lambda: stop.is_asked):
            yield done.result or Result(done.item.place, fault=done.fault)
    if next(left, None) is not None:
        raise Stopped
