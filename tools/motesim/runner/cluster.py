"""The workers of a Dask cluster as a pool, for machines beyond one."""
from __future__ import annotations

import itertools
import logging
import os
import tempfile
import threading
import zipfile
from collections.abc import Callable, Iterable, Iterator
from pathlib import Path
from typing import Any, Generic, NamedTuple

from motesim import packages
from motesim.faults import Fault
from motesim.runner.pools import Done, Item, Result, Shared, tried
from motesim.runner.programs import ProgramFault, program_path
from motesim.runner.versions import program_digest

PACKAGE = Path(__file__).resolve().parents[1]
# The seconds for an answer of the scheduler, and those between two looks at `is_over`; the most items in a list, and
# the number of lists that each worker has at a time.
SECONDS, TICK, MOST_AT_A_TIME, AHEAD = 10, 1, 64, 3


class Binary(NamedTuple):
    """A binary of the command, for its workers: its name, such as `motesim`, its path, and its digest."""
    name: str
    path: str
    digest: str

    @classmethod
    def of(cls, name: str) -> Binary:
        path = program_path(name).resolve()
        return cls(name, str(path), program_digest(path))

    def here(self) -> Path:
        """The path of the same binary on this machine: the one that the environment variable, such as MOTESIM, names
        here, or this one."""
        path = Path(os.environ.get(self.name.upper()) or self.path)
        try:
            if program_digest(path) != self.digest:
                raise ProgramFault('%s differs from the %s of the command' % (path, self.name))
        except OSError as fault:
            raise ProgramFault('%s: %s' % (path, fault.strerror)) from None
        return path


# For each thread of a worker: its work, and the pool for which the work is.
_of_thread = threading.local()


class Given(NamedTuple):
    """What the workers of a cluster share, with the number of their pool."""
    number: str
    prepare: Callable[[Any], Callable[[Any], Any]]
    shared: Any


def run_there(given: Given, items: list[Any]) -> list[tuple[Any, str]]:
    """The results of some items, on a worker, each with its fault."""
    if getattr(_of_thread, 'number', None) != given.number:
        _of_thread.work, _of_thread.fault = tried(given.prepare, given.shared)
        _of_thread.number = given.number
    return [tried(_of_thread.work, it) if _of_thread.work else (None, _of_thread.fault) for it in items]


class Cluster(Generic[Item, Result]):
    """The workers of a cluster, which get these tools, and then lists of items that become longer."""

    def __init__(self, address: str, prepare: Callable[[Shared], Callable[[Item], Result]], shared: Shared) -> None:
        self.distributed: Any = packages.load('distributed')
        self.address, self.given = address, Given(os.urandom(8).hex(), prepare, shared)
        # (Dask and asyncio also log the errors that they raise, with tracebacks)
        logging.disable()
        try:
            self.client: Any = self.distributed.Client(address, timeout=SECONDS)
        except (OSError, TimeoutError, ValueError) as fault:
            raise Fault('no Dask scheduler answers at %s: %s' % (address, fault)) from None
        try:
            self.client.wait_for_workers(1, timeout=SECONDS)
            self.client.upload_file(self._package())
        except TimeoutError:
            self.client.close()
            raise Fault('the Dask scheduler at %s has no workers' % address) from None

    def __enter__(self) -> Cluster[Item, Result]:
        return self

    def __exit__(self, *fault: object) -> None:
        self.client.close()

    def _package(self) -> str:
        """The package of these tools in a form that workers can import."""
        self.folder = tempfile.TemporaryDirectory()
        path = Path(self.folder.name) / 'motesim_tools.zip'
        with zipfile.ZipFile(path, 'w') as file:
            for source in sorted(PACKAGE.rglob('*.py')):
                file.write(source, str(source.relative_to(PACKAGE.parent)))
        return str(path)

    def results(self, items: Iterable[Item],
                is_over: Callable[[], bool] = lambda: False) -> Iterator[Done[Item, Result]]:
        try:
            yield from self._results(iter(items), is_over)
        except Fault:
            raise
        except Exception as fault:
            raise Fault('the Dask cluster at %s: %s: %s' % (self.address, type(fault).__name__, fault)) from None

    def _results(self, items: Iterator[Item], is_over: Callable[[], bool]) -> Iterator[Done[Item, Result]]:
        # (in a list, because Dask would treat the members of a tuple as arguments)
        there, = self.client.scatter([self.given], broadcast=True)
        ahead = AHEAD * max(1, len(self.client.scheduler_info()['workers']))
        going: dict[Any, list[Item]] = {}
        ended = 0
        while True:
            # (first short lists, so that all workers get some)
            length = min(MOST_AT_A_TIME, 1 + ended // ahead)
            while len(going) < ahead and not is_over() and (some := list(itertools.islice(items, length))):
                going[self.client.submit(run_there, there, some, pure=False)] = some
            if not going:
                return
            try:
                done = self.distributed.wait(list(going), timeout=TICK, return_when='FIRST_COMPLETED').done
            except TimeoutError:
                continue
            for future in done:
                for item, answer in zip(going.pop(future), future.result(), strict=True):
                    ended += 1
                    yield Done(item, *answer)
