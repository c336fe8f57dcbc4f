"""The progress of a command, on standard error."""
from __future__ import annotations

import sys
import time

from motesim.terminal import write_over

# (seconds between two lines, on a terminal and elsewhere)
ON_TERMINAL, ELSEWHERE = 0.2, 30.0


def clock(seconds: float) -> str:
    """Minutes and seconds."""
    return '%d:%02d' % divmod(max(0, int(seconds)), 60)


class Progress:
    """On a terminal one line, which changes; elsewhere a line now and then."""

    def __init__(self) -> None:
        self.is_terminal = sys.stderr.isatty()
        self.every = ON_TERMINAL if self.is_terminal else ELSEWHERE
        self.begun = self.last = time.monotonic()
        self.is_shown = False

    def is_due(self) -> bool:
        """Returns whether it is time for a line."""
        now = time.monotonic()
        if now - self.last < self.every:
            return False
        self.last = now
        return True

    def show(self, text: str) -> None:
        self.is_shown = True
        write_over(text) if self.is_terminal else print(text, file=sys.stderr, flush=True)

    def end(self, text: str = '') -> None:
        """Removes the line on a terminal, or replaces it."""
        if self.is_terminal and (text or self.is_shown):
            write_over(text)
