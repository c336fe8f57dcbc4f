"""Ctrl-C during runs."""
from __future__ import annotations

import signal
import threading
from types import FrameType


class Break:
    """Handles Ctrl-C (and SIGTERM) during runs: the first one is noted, and the second one ends the tool at once."""

    def __init__(self, stop: threading.Event | None = None) -> None:
        self.stop = stop or threading.Event()

    @property
    def is_asked(self) -> bool:
        """Returns whether Ctrl-C was pressed."""
        return self.stop.is_set()

    def __enter__(self) -> Break:
        self.before = [(it, signal.signal(it, self.ask)) for it in (signal.SIGINT, signal.SIGTERM)]
        return self

    def ask(self, number: int, frame: FrameType | None) -> None:
        if self.is_asked:
            raise KeyboardInterrupt
        self.stop.set()

    def __exit__(self, *fault: object) -> None:
        for number, handler in self.before:
            signal.signal(number, handler)
