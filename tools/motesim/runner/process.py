"""One run of `motesim` or `motecheck` within limits of time, memory and bytes.

    got = Runner(limits=Limits(20.0)).answer(scenario)  # an `Answer`, or a `LimitMet`

A program gets the scenario on standard input. A binary is started for each run; a module runs in a process of node that
stays (`hosts`). A run that another thread may stop is a `Running`:

    running = runner.start(scenario)
    got = running.wait()                                # `Stopped` once another thread has called running.stop()
"""
from __future__ import annotations

import contextlib
import os
import re
import select
import subprocess
import tempfile
import threading
import time
from collections.abc import Callable, Iterator, Mapping, Sequence
from pathlib import Path
from typing import IO, Literal, NamedTuple

from motesim import runner
from motesim.runner import ending
from motesim.runner.programs import CHECKER, PROGRAM, ProgramFault, program_path, worker_of
from motesim.runner.usage import memory_of, processor_seconds_of

MEGABYTE = 1 << 20
CHUNK = 1 << 16
# The most bytes of standard error that are kept: a fault is one line.
MOST_FAULT = 1 << 16
# The seconds between two checks of the clock and of the memory of a run.
TICK = 0.02


class Answer(NamedTuple):
    """The answer of the binary: its status, its standard output and its standard error. The status is negative if a
    signal ended it."""
    status: int
    report: bytes
    fault: bytes

    @property
    def why(self) -> str:
        """Why there is no report; an empty text if there is one."""
        return (self.fault.decode('utf-8', 'backslashreplace').strip() or 'status %d' % self.status) * bool(self.status)


LimitName = Literal['seconds', 'memory', 'report', 'clock']
# A run also ends if its time on the clock reaches this many times its limit of processor time.
PATIENCE = 30


def _most_memory() -> int:
    """Half of this machine's memory, but at most 8 gigabytes: a run should end before the machine swaps."""
    try:
        return min(8 << 30, os.sysconf('SC_PHYS_PAGES') * os.sysconf('SC_PAGE_SIZE') // 2)
    except (OSError, ValueError):
        return 8 << 30


class Limits(NamedTuple):
    """The limits of a run: seconds of processor time, which hardly depend on the machine's other work, and bytes of
    memory and of its report. A system that says neither of another process (`usage`) has only the clock's limit and
    that of the report."""
    seconds: float = 600.0
    memory: int = _most_memory()
    report: int = 1 << 30

    @property
    def clock(self) -> float:
        """The limit of a run in seconds of real time."""
        return self.seconds * PATIENCE


class LimitMet(ProgramFault):
    """A run was ended at one of its limits."""

    def __init__(self, limit: LimitName, limits: Limits):
        super().__init__({
            'seconds': 'no answer in %g seconds of processor time' % limits.seconds,
            'memory': 'the run needs more than %d megabytes of memory' % (limits.memory // MEGABYTE),
            'report': 'the report is longer than {:,} bytes'.format(limits.report),
            'clock': 'no answer in %g seconds' % limits.clock,
        }[limit])
        self.limit: LimitName = limit
        self.option = '--seconds' if limit == 'clock' else '--' + limit


class Stopped(ProgramFault):
    """A run was stopped by another thread."""

    def __init__(self) -> None:
        super().__init__('the run was stopped')


class NoReport(ProgramFault):
    """`motesim` refuses a scenario."""


class Running:
    """A run that has begun. `wait` returns the answer of the program, once; any thread may call `stop` to end the
    run."""

    def __init__(self, process: subprocess.Popen[bytes], limits: Limits, asks_end: Callable[[], bool]):
        self._process, self._limits, self._asks_end = process, limits, asks_end
        self._look = time.monotonic() + TICK
        self._latest = time.monotonic() + limits.clock
        self._before = 0.0
        self._report: list[bytes] = []
        self._fault = bytearray()
        self._length = 0
        self._why: LimitMet | Stopped | None = None
        self._is_over = False
        self._status = 1
        self._lock = threading.Lock()

    @property
    def pid(self) -> int:
        """The number of the run's process."""
        return self._process.pid

    def stop(self) -> None:
        """Ends the run: `wait` raises `Stopped`, unless the run had ended before."""
        self._end_by(Stopped())

    def wait(self) -> Answer:
        """The answer of the program. Raises `LimitMet` or `Stopped` if the run was ended early."""
        try:
            self._read()
        finally:
            with self._lock:
                self._is_over = True
                self._end()
        if self._why:
            raise self._why
        return Answer(self._status, b''.join(self._report), bytes(self._fault))

    def _read(self) -> None:
        """Reads what the program writes, up to its end."""
        raise NotImplementedError

    def _end(self) -> None:
        """Ends the process, unless it may make another run."""
        raise NotImplementedError

    def _end_by(self, why: LimitMet | Stopped) -> None:
        with self._lock:
            if not self._is_over and self._why is None:
                self._why = why
                ending.kill(self._process)

    def _pieces(self, *pipes: IO[bytes] | None) -> Iterator[tuple[int, bytes]]:
        """What comes from pipes, each piece with the place of its pipe, until all pipes are closed or the run is
        ended."""
        poll, places = select.poll(), {pipe.fileno(): place for place, pipe in enumerate(pipes) if pipe}
        for number in places:
            poll.register(number, select.POLLIN)
        while places and not self._why:
            ready = poll.poll(TICK * 1000)
            if not ready and self._process.poll() is not None:
                # (what the program has started may hold its pipes)
                return
            for number, _ in ready:
                data = os.read(number, CHUNK)
                if data:
                    yield places[number], data
                else:
                    poll.unregister(number)
                    del places[number]
            self._check()

    def _take(self, is_report: bool, data: bytes) -> None:
        """Keeps a piece of the report or of the fault."""
        if is_report:
            self._report.append(data)
            self._length += len(data)
            if self._length > self._limits.report:
                self._end_by(LimitMet('report', self._limits))
        else:
            self._fault += data[:max(0, MOST_FAULT - len(self._fault))]

    def _check(self) -> None:
        """Ends the run if it has reached a limit of time, processor time or memory."""
        now = time.monotonic()
        if now < self._look:
            return
        self._look = now + TICK
        if processor_seconds_of(self._process.pid) - self._before > self._limits.seconds:
            self._end_by(LimitMet('seconds', self._limits))
        elif now > self._latest:
            self._end_by(LimitMet('clock', self._limits))
        elif memory_of(self._process.pid) > self._limits.memory:
            self._end_by(LimitMet('memory', self._limits))
        elif self._asks_end():
            self.stop()


class OfBinary(Running):
    """The run of a binary, in a process of its own, with files that are removed at its end."""

    def __init__(self, path: Path, scenario: bytes, words: Sequence[str], files: Mapping[str, bytes], limits: Limits,
                 asks_end: Callable[[], bool]):
        with contextlib.ExitStack() as made:
            given = made.enter_context(_file_with(scenario))
            names = {}
            for name, data in files.items():
                names[name] = made.enter_context(_file_with(data, tempfile.NamedTemporaryFile)).name
            process = ending.started(lambda: subprocess.Popen(
                [path.name, *(names.get(it, it) for it in words)], executable=str(path.resolve()), stdin=given,
                stdout=subprocess.PIPE, stderr=subprocess.PIPE, bufsize=0, process_group=ending.group()))
            self._made = made.pop_all()
        super().__init__(process, limits, asks_end)

    def _read(self) -> None:
        for place, data in self._pieces(self._process.stdout, self._process.stderr):
            self._take(place == 0, data)

    def _end(self) -> None:
        ending.end(self._process)
        self._status = self._process.returncode
        self._made.close()


def _file_with(data: bytes, made_by: Callable[[], IO[bytes]] = tempfile.TemporaryFile) -> IO[bytes]:
    """A temporary file with these bytes."""
    file = made_by()
    file.write(data)
    file.flush()
    file.seek(0)
    return file


# What motecheck says about a fault that it can't read, or that the net can't have, by the fault's number.
REFUSED = re.compile(r'motecheck: fault(?:s fault line)? (?P<number>\d+) (?:column (?P<column>\d+)|(?P<why>.*))')
NOT_READ = 'is no fault from column %s on: docs/use/TESTING.md has the words of faults, such as `link 1 to 2 is broken`'


def options_of(faults: Sequence[str]) -> list[str]:
    """The options that name faults to motecheck."""
    return ['--fault=' + it for it in faults]


def refusal_of(why: str, faults: Sequence[str]) -> str:
    """The fault that motecheck refuses, with the reason; an empty text if it refuses none."""
    found = REFUSED.fullmatch(why)
    if not found or int(found['number']) > len(faults):
        return ''
    return '`%s` %s' % (faults[int(found['number']) - 1], found['why'] or NOT_READ % found['column'])


class Runner:
    """Runs a program within limits; without a path, the motesim that all tools run. Once `asks_end()` is true, its runs
    are stopped. The faults are those of the runs; without a path, motecheck writes the report of a run with faults."""

    def __init__(self, program: Path | None = None, limits: Limits = Limits(),
                 asks_end: Callable[[], bool] = lambda: False, faults: Sequence[str] = ()):
        self.program, self.limits, self.asks_end, self.faults = program, limits, asks_end, faults

    def with_faults(self, faults: Sequence[str]) -> Runner:
        """The same runner, of runs with these faults."""
        return Runner(None, self.limits, self.asks_end, faults) if faults else self

    def start(self, scenario: bytes, *words: str, files: Mapping[str, bytes] = {}) -> Running:
        """Begins a run of a scenario. Words that are names of `files` name files with these bytes."""
        path = self.program or program_path(CHECKER if self.faults else PROGRAM)
        if self.faults:
            words = (*options_of(self.faults), *(words if self.program else ('--report', '/dev/stdin')))
        try:
            if worker_of(path):
                return runner.OfModule(path, scenario, words, files, self.limits, self.asks_end)
            return OfBinary(path, scenario, words, files, self.limits, self.asks_end)
        except (OSError, ValueError) as fault:
            why = fault.strerror if isinstance(fault, OSError) else fault
            raise ProgramFault('%s can\'t be run: %s' % (path, why)) from None

    def answer(self, scenario: bytes, *words: str, files: Mapping[str, bytes] = {}) -> Answer:
        """The answer of the program to a scenario, with these words on its command line. Raises a `ProgramFault` if it
        refuses a fault."""
        got = self.start(scenario, *words, files=files).wait()
        refusal = refusal_of(got.why, self.faults)
        if refusal:
            raise ProgramFault(refusal)
        return got

    def report(self, scenario: bytes, *words: str) -> bytes:
        """The report of a scenario. Raises `NoReport` if the program refuses it."""
        got = self.answer(scenario, *words)
        if got.status:
            raise NoReport('the scenario has no report: %s' % got.why)
        return got.report
