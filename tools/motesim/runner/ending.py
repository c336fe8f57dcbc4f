"""Ends the runs of this process when a signal or an exception ends it.

The process of a run is the leader of its own group, so that Ctrl-C reaches only the tool, and a run ends together with
its child processes. Without this module the run would continue after a signal that ends the tool, and nobody would
watch its limits. A worker of a pool is also such a leader; its runs belong to its group, and end together with it.
"""
from __future__ import annotations

import atexit
import contextlib
import os
import signal
import subprocess
import threading
from collections.abc import Callable, Iterator
from types import FrameType

ENDING = signal.SIGTERM, signal.SIGHUP


class _Runs:
    """The processes of runs that haven't ended, and whether they share the group of this process."""
    numbers: set[int] = set()
    is_shared = False


def share_group() -> None:
    """Makes this process the leader of a group; all its later runs belong to this group."""
    os.setpgid(0, 0)
    _Runs.is_shared = True


def group() -> int | None:
    """The group of a new run, as an argument of `Popen`."""
    return None if _Runs.is_shared else 0


def started(start: Callable[[], subprocess.Popen[bytes]]) -> subprocess.Popen[bytes]:
    """Starts the process of a run, in this `group`, which ends with this process unless `end` is called."""
    process = None
    try:
        with _deferred():
            process = start()
            _Runs.numbers.add(process.pid)
    except BaseException:
        if process:
            end(process)
        raise
    return process


def kill(process: subprocess.Popen[bytes]) -> None:
    """Ends a process that `started` has returned, with its child processes. Nothing may have waited for it."""
    if process.pid in _Runs.numbers:
        _kill(process.pid)


def end(process: subprocess.Popen[bytes]) -> None:
    """Ends a process that `started` has returned, with its child processes, unless it has ended. If none is left,
    signals end this process at once, as before."""
    kill(process)
    process.wait()
    close(process)
    _Runs.numbers.discard(process.pid)
    if _is_main() and not _Runs.numbers:
        for number in ENDING:
            if signal.getsignal(number) is _end:
                signal.signal(number, signal.SIG_DFL)


def close(process: subprocess.Popen[bytes]) -> None:
    """Closes the pipes of a process."""
    for pipe in process.stdin, process.stdout, process.stderr:
        if pipe:
            pipe.close()


@contextlib.contextmanager
def _deferred() -> Iterator[None]:
    """Defers signals until a run is in the list. From then on, signals that would end this process at once also end
    its runs."""
    if not _is_main() or _Runs.is_shared:
        yield
        return
    came: list[int] = []
    before = {it: signal.getsignal(it) for it in (*ENDING, signal.SIGINT)}
    # (a handler that the tool has set stays)
    before = {it: handler for it, handler in before.items()
              if handler in (signal.SIG_DFL, signal.default_int_handler, _end)}
    for number in before:
        signal.signal(number, lambda number, _: came.append(number))
    try:
        yield
    finally:
        for number, handler in before.items():
            signal.signal(number, _end if handler == signal.SIG_DFL and number in ENDING else handler)
        for one in came:
            signal.raise_signal(one)


def _is_main() -> bool:
    """True in the main thread: only this thread can set handlers of signals."""
    return threading.current_thread() is threading.main_thread()


def _kill(number: int) -> None:
    with contextlib.suppress(OSError):
        (os.kill if _Runs.is_shared else os.killpg)(number, signal.SIGKILL)


def _end_all() -> None:
    for number in list(_Runs.numbers):
        _kill(number)


def _end(number: int, frame: FrameType | None) -> None:
    """Ends all runs, and then this process, by the same signal."""
    _end_all()
    signal.signal(number, signal.SIG_DFL)
    os.kill(os.getpid(), number)


# (Ctrl-C may come before anything waits for a run that has begun; a forked process has no runs yet)
atexit.register(_end_all)
os.register_at_fork(after_in_child=_Runs.numbers.clear)
