"""The bytes of files, and their texts, which are in UTF-8."""
from __future__ import annotations

import sys
from pathlib import Path

from motesim.faults import Fault

SAVE = 'Save it as UTF-8: an editor has that under "Save as" or "Encoding"'


def read_file(path: str | Path) -> bytes:
    """The bytes of a file, or of standard input for the name `-`."""
    if str(path) == '-' and sys.stdin is None:
        raise Fault('standard input is closed')
    try:
        return sys.stdin.buffer.read() if str(path) == '-' else Path(path).read_bytes()
    except OSError as fault:
        raise Fault('%s: %s' % (path, fault.strerror)) from None


def not_text(file: str, line: int) -> str:
    """The message about a file that isn't UTF-8."""
    return '%s is not UTF-8, because of a byte in line %d. %s' % (file, line, SAVE)


def decoded(file: str, data: bytes) -> str:
    """A file's text. Raises a fault if it isn't UTF-8."""
    try:
        return data.decode('utf-8')
    except UnicodeDecodeError as fault:
        raise Fault(not_text(file, data[:fault.start].count(b'\n') + 1)) from None


def hint(data: bytes) -> str | None:
    """The hint on a file that isn't UTF-8."""
    try:
        data.decode('utf-8')
        return None
    except UnicodeDecodeError:
        return SAVE + '.'
