"""The file of a sweep: CSV with a row for each run. Its first line has what all rows have in common:

    #{"plan": "net.plan.toml", "parameters": ["period", "seed"], "measures": {"ratio": "ratio"}, ..}
    period,seed,ratio,error,note,warnings,..

A row is saved as soon as it exists. In CSV all values are texts; a text that has the form of a number is read as a
number.
"""
from __future__ import annotations

import csv
import dataclasses
import fcntl
import hashlib
import json
import os
import re
from collections.abc import Iterable, Mapping, Sequence
from dataclasses import dataclass
from pathlib import Path
from typing import IO

from motesim.cells import Cell, line_of
from motesim.faults import Fault
from motesim.files import write_whole
from motesim.version import VERSION

Row = dict[str, Cell]
NUMBER = re.compile(r'0|-?[1-9][0-9]*')
REAL = re.compile(r'-?[0-9]+(\.[0-9]+)?(e[-+][0-9]+)?')
BEGIN = b'#{'
# The columns behind parameters and measures: why a run has no result, why measures failed, the codes of warnings, how
# many nets were rejected before the run's net, and digests.
MADE = ('error', 'note', 'warnings', 'rejected', 'plan_sha256', 'scenario_sha256', 'places_sha256', 'report_sha256')


@dataclass(frozen=True)
class Head:
    """What all rows of a file have in common: the names of the plan and of its parameters, the text of each measure,
    the digests of the users' files that measures need, and the build of `motesim`."""
    plan: str
    parameters: Sequence[str]
    measures: Mapping[str, str]
    files: Mapping[str, str]
    motesim: str
    motesim_sha256: str
    kit: str

    @property
    def columns(self) -> list[str]:
        return [*self.parameters, *self.measures, *MADE]

    def text(self) -> str:
        """The first two lines of the file."""
        return '#%s\n%s' % (json.dumps(dataclasses.asdict(self), ensure_ascii=False), line_of(self.columns))

    def origin(self, results: Path, command: str) -> str:
        """The first line of a table that a command makes of these results: it says where the numbers are from. It has
        no date, so that the same command on the same results writes the same bytes."""
        return '#' + json.dumps({
            'command': command, 'tools': VERSION, 'results': results.name,
            'results_sha256': hashlib.sha256(results.read_bytes()).hexdigest(), 'motesim': self.motesim,
            'motesim_sha256': self.motesim_sha256, 'measures': self.measures}, ensure_ascii=False)


def cell(text: str) -> Cell:
    """A value from its text."""
    if NUMBER.fullmatch(text):
        return int(text)
    # (a real number only if it would be written in the same way; any other text stays a text)
    return float(text) if REAL.fullmatch(text) and repr(float(text)) == text else text or None


def read_results(path: Path) -> tuple[Head, list[Row]]:
    """The head and the rows of a file of results."""
    try:
        with open(path, encoding='utf-8', newline='') as file:
            head = _head_of(path, file.readline())
            records = csv.reader(file, strict=True)
            if next(records, None) != head.columns:
                raise Fault('%s doesn\'t have the columns that its first line names' % path)
            return head, [_row(path, head, number, values) for number, values in enumerate(records, 1)]
    except OSError as fault:
        raise Fault('%s: %s' % (path, fault.strerror)) from None
    except (csv.Error, UnicodeDecodeError) as fault:
        raise Fault('%s is not CSV: %s' % (path, fault)) from None


def _head_of(path: Path, line: str) -> Head:
    try:
        return Head(**json.loads(line.removeprefix('#')))
    except (ValueError, TypeError):
        raise _foreign(path) from None


def _foreign(path: Path) -> Fault:
    return Fault('%s isn\'t a file that this version of tools/sweep wrote: name another file' % path)


def _row(path: Path, head: Head, number: int, values: Sequence[str]) -> Row:
    if len(values) != len(head.columns):
        raise Fault('%s, row %d: %d values instead of %d' % (path, number, len(values), len(head.columns)))
    return {name: text or None if name.endswith('_sha256') else cell(text)
            for name, text in zip(head.columns, values)}


class Results:
    """The file to which a sweep adds rows; no other sweep may write to it at the same time."""

    def __init__(self, path: Path, head: Head) -> None:
        self.path, self.head = path, head
        if path.exists() and not path.is_file():
            raise Fault('%s isn\'t a file' % path)
        self.file = _locked(path)
        data = path.read_bytes()
        if data and not data.startswith(BEGIN):
            raise _foreign(path)
        # (a last line that was cut off is dropped)
        os.ftruncate(self.file.fileno(), data.rfind(b'\n') + 1)
        if b'\n' not in data:
            self._append(head.text())
        self.found, self.rows = read_results(path)
        if self.found.columns != head.columns:
            raise Fault('%s has the columns %s, and this sweep makes %s: name another file with -o' % (
                path, ', '.join(_named(self.found)), ', '.join(_named(head))))

    def _append(self, text: str) -> None:
        try:
            self.file.write(text.encode())
            self.file.flush()
        except OSError as fault:
            raise Fault('%s: %s' % (self.path, fault.strerror)) from None

    def add(self, row: Row) -> None:
        self._append(self._line(row))

    def _line(self, row: Row) -> str:
        return line_of(row.get(name) for name in self.head.columns)

    def write(self, rows: Iterable[Row]) -> None:
        """Replaces all rows."""
        write_whole(self.path, (it.encode() for it in (self.head.text(), *map(self._line, rows))))
        self.close()
        self.file = _locked(self.path)

    def close(self) -> None:
        self.file.close()


def _named(head: Head) -> list[str]:
    return [*head.parameters, *head.measures]


def _locked(path: Path) -> IO[bytes]:
    """The file, opened, so that no other sweep writes to it until it is closed."""
    try:
        file = open(path, 'ab')
    except OSError as fault:
        raise Fault('%s: %s' % (path, fault.strerror)) from None
    try:
        fcntl.flock(file, fcntl.LOCK_EX | fcntl.LOCK_NB)
    except OSError:
        file.close()
        raise Fault('%s is being written by another sweep' % path) from None
    return file
