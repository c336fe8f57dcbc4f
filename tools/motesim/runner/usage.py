"""The processor time and the memory of another process, where the system tells them: Linux does."""
from __future__ import annotations

import os
import time


def memory_of(pid: int) -> int:
    """The bytes of memory that a process has; 0 if the system doesn't report it."""
    try:
        with open('/proc/%d/statm' % pid, encoding='ascii') as file:
            return int(file.read().split()[1]) * os.sysconf('SC_PAGE_SIZE')
    except (OSError, IndexError, ValueError):
        return 0


def processor_seconds_of(pid: int) -> float:
    """The seconds of processor time that a process has used; 0 if the system doesn't report it."""
    try:
        # (the clock of a process; clock_getcpuclockid computes its number in the same way)
        return time.clock_gettime(~pid << 3 | 2)
    except OSError:
        return 0.0
