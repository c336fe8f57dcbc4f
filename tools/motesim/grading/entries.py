"""The entries of a folder that somebody else filled.

Everything in it becomes an `Entry`: a file to grade, or the reason why it can't be graded. Only plain files are
opened, and at most as many bytes are read as a scenario may have.
"""
from __future__ import annotations

import os
import stat
from collections.abc import Iterator
from itertools import islice
from pathlib import Path
from typing import NamedTuple

from motesim.faults import Fault
from motesim.scenario.faults import LONGEST_TEXT
from motesim.terminal import one_line

SUFFIXES = ('.toml', '.mote')
OF_TEACHER = '.expect.toml'
MOST_ENTRIES = 10_000
DEEPEST = 8


class Entry(NamedTuple):
    """An entry: its shown name, its path, and the reason why it can't be graded, or an empty text.

    is_solution  whether it is marked: a plain file with another ending, such as notes or an archive, has no mark
    """
    name: str
    path: Path
    why: str = ''
    is_solution: bool = True


def _why_by_name(name: str) -> str:
    """The reason why a plain file has no mark, if its name isn't that of a solution."""
    why = 'its name ends neither in .toml nor in .mote'
    if name.lower().endswith(SUFFIXES):
        return why + ': write the ending in small letters'
    if name.removesuffix('.txt').endswith(SUFFIXES):
        return why + ': remove the ending .txt'
    return why


def _entries(folder: Path, top: Path, depth: int, skipped: list[str]) -> Iterator[Entry]:
    """The entries of a folder and of the folders in it. An empty folder is an entry. `skipped` gets the names of the
    files that are none."""
    name = one_line(str(folder.relative_to(top)))
    try:
        found = sorted(os.scandir(folder), key=lambda it: os.fsencode(it.name))
    except OSError as fault:
        yield Entry(name, folder, 'the folder can\'t be read: %s' % fault.strerror)
        return
    if depth and all(it.name.startswith('.') for it in found):
        yield Entry(name, folder, 'an empty folder')
    for it in found:
        path, its = Path(it.path), one_line(str(Path(it.path).relative_to(top)))
        try:
            mode = it.stat(follow_symlinks=False).st_mode
        except OSError as fault:
            yield Entry(its, path, '%s' % fault.strerror)
            continue
        if it.name.startswith('.') or stat.S_ISREG(mode) and it.name.endswith(OF_TEACHER):
            skipped.append(its)
        elif stat.S_ISDIR(mode) and depth < DEEPEST:
            yield from _entries(path, top, depth + 1, skipped)
        elif stat.S_ISDIR(mode):
            yield Entry(its, path, 'folders are nested too deeply')
        elif not stat.S_ISREG(mode):
            yield Entry(its, path, 'not a file: a link, a pipe or a socket')
        else:
            is_solution = it.name.endswith(SUFFIXES)
            yield Entry(its, path, '' if is_solution else _why_by_name(it.name), is_solution)


def entries_of(folder: Path) -> tuple[list[Entry], list[str]]:
    """All entries of a folder, by name; and the names of the files that have no row: hidden files and expectations."""
    if not folder.is_dir():
        raise Fault('%s is a file: name the folder of the solutions' % folder if folder.exists() else
                    'there is no folder %s' % folder)
    skipped = list[str]()
    found = list(islice(_entries(folder, folder, 0, skipped), MOST_ENTRIES + 1))
    if len(found) > MOST_ENTRIES:
        raise Fault('{} has more than {:,} entries'.format(folder, MOST_ENTRIES))
    if not found:
        raise Fault('%s has no solution: a scenario NAME.toml or a program NAME.mote' % folder)
    return found, skipped


def decoded(data: bytes) -> str:
    """The text of a solution. Raises a `Fault` if it is too long or isn't UTF-8."""
    if len(data) > LONGEST_TEXT:
        raise Fault('the file is longer than {:,} bytes'.format(LONGEST_TEXT))
    try:
        return data.decode('utf-8')
    except UnicodeDecodeError:
        raise Fault('the file is not UTF-8 text: save it as UTF-8') from None


def data_of(entry: Entry) -> bytes:
    """The bytes of a plain file; if it is too long, only enough bytes to show this."""
    # (it may have been replaced since the folder was read: a pipe isn't waited for, and a link isn't followed)
    try:
        number = os.open(entry.path, os.O_RDONLY | os.O_NONBLOCK | os.O_NOFOLLOW | os.O_CLOEXEC)
    except OSError as fault:
        raise Fault('it can\'t be read: %s' % fault.strerror) from None
    if not stat.S_ISREG(os.fstat(number).st_mode):
        os.close(number)
        raise Fault('not a file')
    with open(number, 'rb') as file:
        return file.read(LONGEST_TEXT + 1)
