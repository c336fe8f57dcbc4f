"""The edge of a command: `@command('compare')` above its `main`, which returns the status."""
from __future__ import annotations

import functools
import gc
import os
import signal
import sys
from collections.abc import Callable
from pathlib import Path
from typing import NoReturn

from motesim.faults import Fault, status_of


def version_line() -> str:
    """The line that `--version` prints, about the binary that would run."""
    # (only this option needs it)
    from motesim.runner.versions import version_line
    return version_line()


def finish(tool: str, work: Callable[[], int], version: Callable[[], str]) -> NoReturn:
    """Ends a command with the status that `work` returns, or with 2 and one line on standard error."""
    # (the garbage collector would need longer to search millions of lines than the command to do its work)
    gc.disable()
    sys.exit(status_of(tool, (lambda: say(version())) if sys.argv[1:] == ['--version'] else work))


def say(line: str) -> int:
    print(line)
    return 0


def command(tool: str, version: Callable[[], str] = version_line) -> Callable[[Callable[[], int]],
                                                                              Callable[[], NoReturn]]:
    """Makes a command from a function that returns a status. With the argument --version the command prints the
    version."""
    def made(work: Callable[[], int]) -> Callable[[], NoReturn]:
        @functools.wraps(work)
        def main() -> NoReturn:
            finish(tool, work, version)
        return main
    return made


def become(program: Path, words: list[str]) -> NoReturn:
    """Replaces this process by a program, which is called with these words and has the signals of any other."""
    # (Python ignores them)
    for number in signal.SIGPIPE, signal.SIGXFSZ:
        signal.signal(number, signal.SIG_DFL)
    sys.stdout.flush()
    try:
        os.execv(program, words)
    except OSError as fault:
        raise Fault('%s can\'t be run: %s' % (program, fault.strerror)) from None
