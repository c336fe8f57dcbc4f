"""A limit on the processor time of work in this process.

    with at_most(10, TimeoutError('not finished after 10 seconds')):
        ...
"""
from __future__ import annotations

import math
import signal
import threading
from collections.abc import Iterator
from contextlib import contextmanager


@contextmanager
def at_most(seconds: float, failure: Exception) -> Iterator[None]:
    """Raises a failure in the work inside if this needs more processor time. Only the main thread of a process can be
    ended."""
    if seconds == math.inf or threading.current_thread() is not threading.main_thread():
        yield
        return

    def end(*_: object) -> None:
        raise failure

    before = signal.signal(signal.SIGPROF, end)
    signal.setitimer(signal.ITIMER_PROF, seconds)
    try:
        yield
    finally:
        signal.setitimer(signal.ITIMER_PROF, 0)
        signal.signal(signal.SIGPROF, before)
