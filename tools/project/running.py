"""Commands that end with this process, and work that one process does at a time."""
from __future__ import annotations

import contextlib
import ctypes
import fcntl
import functools
import os
import signal
import subprocess
import sys
from collections.abc import Callable, Iterator, Sequence
from pathlib import Path
from typing import IO, Any, NoReturn

LIBC = ctypes.CDLL(None)
# The call of Linux by which a process gets a signal when its parent ends (prctl(2)).
PR_SET_PDEATHSIG = 1
ENDING = signal.SIGTERM, signal.SIGHUP, signal.SIGINT


def ends_with_parent(number: int) -> Callable[[], object] | None:
    """Returns a function that a new process calls before its command, so that it gets this signal when its parent
    ends; None if the system hasn't this call."""
    prctl = getattr(LIBC, 'prctl', None)
    return functools.partial(prctl, PR_SET_PDEATHSIG, number) if prctl else None


@contextlib.contextmanager
def started(words: Sequence[str], as_group: bool = False,
            **how: Any) -> Iterator[tuple[subprocess.Popen[str], IO[str]]]:
    """Starts a command, and yields its process and the stream of all its messages. The command ends when this block or
    this process ends. With `as_group` it has its own group, and its child processes end with it; without `as_group`,
    the keys of the terminal reach it, too."""
    with subprocess.Popen(words, stdin=subprocess.DEVNULL, stdout=subprocess.PIPE, stderr=subprocess.STDOUT,
                          encoding='utf-8', errors='replace', start_new_session=as_group,
                          preexec_fn=ends_with_parent(signal.SIGKILL), **how) as running:
        assert running.stdout
        try:
            yield running, running.stdout
        except BaseException:
            os.killpg(running.pid, signal.SIGKILL) if as_group else running.kill()
            raise


def stop(number: int, _: object) -> NoReturn:
    """Ends this process, after the ends of its blocks, with the status of a process that the signal ended."""
    for it in ENDING:
        signal.signal(it, signal.SIG_IGN)
    sys.exit(128 + number)


def end_on_signals() -> None:
    """Makes the signals that end this process end its blocks first."""
    for number in ENDING:
        # (nohup makes a process ignore one of them)
        if signal.getsignal(number) != signal.SIG_IGN:
            signal.signal(number, stop)


@contextlib.contextmanager
def locked(file: Path, waiting: str) -> Iterator[None]:
    """Does the work of a block while no other process does it. If another process does it, prints a line and waits."""
    file.parent.mkdir(parents=True, exist_ok=True)
    with open(file, 'w', encoding='ascii') as lock:
        try:
            fcntl.flock(lock, fcntl.LOCK_EX | fcntl.LOCK_NB)
        except BlockingIOError:
            print(waiting, file=sys.stderr, flush=True)
            fcntl.flock(lock, fcntl.LOCK_EX)
        yield
