"""Files that are written completely or not at all."""
from __future__ import annotations

import contextlib
import os
import tempfile
from collections.abc import Iterable
from pathlib import Path

from motesim.faults import Fault


class NotWritten(Fault):
    """A file that can't be written, and the reason."""

    def __init__(self, path: Path, why: str):
        super().__init__('%s: %s' % (path, why))
        self.why = why


def refuse_inputs(path: str | Path, inputs: Iterable[str | Path | None], option: str = '-o') -> None:
    """Raises a fault if writing this file would replace an input of the command, even if the names differ.

    Each tool calls this for each file that the user names, before it does anything that lasts long. A name that is
    None isn't an input. Files that aren't regular, such as standard input and output, are never the same.
    """
    path = Path(path)
    for it in inputs:
        if it is not None and _is_same(path, Path(it)):
            name = 'an input of this command' if str(path) == str(it) else '%s, an input of this command' % it
            raise Fault('writing %s would replace %s: name another file with %s' % (path, name, option))


def _is_same(one: Path, other: Path) -> bool:
    try:
        return one.is_file() and other.is_file() and one.samefile(other)
    except (OSError, ValueError):
        return False


def write_whole(path: str | Path, parts: Iterable[bytes]) -> None:
    """Writes a file under a temporary name, and renames it at the end; until then an earlier file stays.

    A file that exists keeps its mode. Anything other than a regular file, such as /dev/stdout, is written directly.
    Raises a `NotWritten` if the file can't be written.
    """
    path = Path(path)
    try:
        # (a symbolic link stays, and the file to which it points is replaced)
        target = path.resolve()
        if target.exists() and not target.is_file():
            with open(target, 'wb') as file:
                file.writelines(parts)
            return
        if target.exists() and not os.access(target, os.W_OK):
            raise PermissionError(0, 'writing to it is not allowed')
        _replace(target, parts)
    except OSError as fault:
        raise NotWritten(path, fault.strerror or str(fault)) from None


def _replace(target: Path, parts: Iterable[bytes]) -> None:
    mode = target.stat().st_mode & 0o777 if target.is_file() else 0o666 & ~_mask()
    number, scratch = tempfile.mkstemp(prefix='.%s.' % target.name[:100], dir=target.parent)
    try:
        with open(number, 'wb') as file:
            file.writelines(parts)
            file.flush()
            os.fchmod(number, mode)
            os.fsync(number)
        os.replace(scratch, target)
    except BaseException:
        with contextlib.suppress(OSError):
            os.unlink(scratch)
        raise


def _mask() -> int:
    """The permissions that new files don't get (the umask)."""
    mask = os.umask(0o077)
    os.umask(mask)
    return mask
