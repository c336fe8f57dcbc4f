"""Errors that are reported in one line, and the exit status of each command.

For an error in the input or in a file, or if memory is short, a command prints one line on standard error, and its
status is 2. If the reader of its output closes the pipe, it ends without a message, with status 141.
"""
from __future__ import annotations

import io
import os
import sys
from collections.abc import Callable
from typing import TypeVar

from motesim.terminal import plain_stream

FAILED, INTERRUPTED = 2, 130
# The status of a command whose reader has closed the pipe, as that of a command that SIGPIPE ends.
CLOSED = 141
# If this environment variable is set, an error of a tool itself is shown with its traceback.
SHOW = 'MOTESIM_TRACEBACK'

Result = TypeVar('Result')


class Fault(Exception):
    """An error that is reported in one line."""


def own_error(fault: Exception) -> str:
    """The words about an error of a tool itself."""
    return 'an error in the tool itself: %s: %s (%s=1 shows its place)' % (type(fault).__name__, fault, SHOW)


def tried(work: Callable[[], Result], instead: Callable[[str], Result]) -> Result:
    """The result of `work`, which isn't essential; if it fails by an error of the tool itself, the result of `instead`,
    which gets the words about this error."""
    try:
        return work()
    except (Fault, MemoryError, OSError):
        raise
    except Exception as fault:
        if os.environ.get(SHOW):
            raise
        return instead(own_error(fault))


def in_words(fault: OSError) -> str:
    """The system's message, with the name of the file, or `standard output` if the error names no file."""
    where = 'standard output' if fault.filename is None else os.fsdecode(fault.filename)
    return '%s: %s' % (where, fault.strerror or fault)


def drop_output() -> None:
    """Discards the rest of standard output: otherwise Python would report an error when it ends."""
    with open(os.devnull, 'wb') as nothing:
        os.dup2(nothing.fileno(), 1)


def check_streams() -> None:
    """Raises a `Fault` if standard output is closed; replaces a closed standard error by one that discards everything.

    After this call nothing that is printed can control a terminal.
    """
    if sys.stderr is None:
        sys.stderr = open(os.devnull, 'w', encoding='utf-8')
    if sys.stdout is None:
        raise Fault('standard output is closed')
    if isinstance(sys.stdout, io.TextIOWrapper):
        # (the name of a file need not be UTF-8, and the terminal may lack a character)
        sys.stdout.reconfigure(errors='backslashreplace')
    sys.stdout, sys.stderr = plain_stream(sys.stdout), plain_stream(sys.stderr)


def status_of(tool: str, work: Callable[[], int]) -> int:
    """Returns the status of `work`; if it fails, prints its error, and returns the status of an error."""
    try:
        check_streams()
        status = work()
        sys.stdout.flush()
        return status
    except Fault as fault:
        message = str(fault)
    except MemoryError:
        message = 'out of memory'
    except BrokenPipeError:
        # (the reader of a pipe, such as `head`, has what it wants)
        drop_output()
        return CLOSED
    except OSError as fault:
        message = in_words(fault)
        if fault.filename is None:
            drop_output()
    except KeyboardInterrupt:
        return INTERRUPTED
    except Exception as fault:
        if os.environ.get(SHOW):
            raise
        message = own_error(fault)
    print('%s: %s' % (tool, message), file=sys.stderr)
    return FAILED
