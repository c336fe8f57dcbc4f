"""Files next to a plan: programs, and tables of places and losses."""
from __future__ import annotations

import csv
import hashlib
import io
import re
from collections.abc import Iterator, Mapping, Sequence
from pathlib import Path

from motesim.faults import Fault
from motesim.plan.tables import Key, PlanFault, shown
from motesim.scenario.encodings import read_file
from motesim.scenario.places import Place


class Files:
    """The files next to a plan, by the names that the plan has for them."""

    def __init__(self, folder: Path, known: Mapping[str, bytes] | None = None) -> None:
        self.folder = folder
        self.known: dict[str, bytes] = dict(known or {})

    def read(self, name: str) -> bytes:
        if name not in self.known:
            self.known[name] = read_file(self.folder / name)
        return self.known[name]

    def column(self, name: str, column: str) -> set[str]:
        """The values in a column of a table, as far as it can be read."""
        try:
            text = self.read(name).decode('utf-8', 'replace').removeprefix('\ufeff')
            rows = list(csv.DictReader(io.StringIO(text, newline=''), skipinitialspace=True))
        except (Fault, ValueError, csv.Error):
            return set()
        return {value.strip() for row in rows for key, value in row.items()
                if type(key) is str and key.strip() == column and type(value) is str and value.strip()}

    def digest(self, text: str, names: Sequence[str]) -> str:
        """The SHA-256 of a plan's text and of these files with their names; a missing file counts as empty."""
        made = hashlib.sha256(text.encode())
        for name in names:
            data = self._data(name)
            made.update(b'\0%s\0%d\0' % (name.encode(), len(data)) + data)
        return made.hexdigest()

    def _data(self, name: str) -> bytes:
        try:
            return self.read(name)
        except (Fault, ValueError):
            return b''


class Row:
    """A row of a table: its line, and its values by the names of the columns."""

    def __init__(self, table: CsvTable, line: int, values: Mapping[str, str]) -> None:
        self.table, self.line, self.values = table, line, values

    def fault(self, rule: str, may: str) -> PlanFault:
        return self.table.fault(self.line, rule, may)

    def number(self, name: str, key: Key) -> int:
        """A number in this column."""
        value = self.values[name]
        if re.fullmatch('-?[0-9]{1,18}', value) and key.least <= int(value) <= key.most:
            return int(value)
        raise self.fault('The value in the column %s is not allowed.' % name, key.may(name))


class CsvTable:
    """A table in a file of CSV. Its first line has the names of the columns, in any order."""

    def __init__(self, name: str, text: str, columns: Sequence[str], more: Sequence[str] = ()) -> None:
        self.name, self.text = name, text.removeprefix('\ufeff')
        self.columns, self.more = columns, more

    def fault(self, line: int, rule: str, may: str) -> PlanFault:
        rows = self.text.split('\n')
        length = len(rows[line - 1].rstrip('\r')) if line <= len(rows) else 0
        return PlanFault(shown(self.name, self.text, Place(line, 0, max(1, length)), rule, may))

    def rows(self) -> Iterator[Row]:
        reader = csv.DictReader(io.StringIO(self.text, newline=''), skipinitialspace=True)
        names = [it.strip() for it in reader.fieldnames or ()]
        known = ', '.join(self.columns) + (' and, if wanted, %s' % ', '.join(self.more) if self.more else '')
        if not set(self.columns) <= set(names) <= {*self.columns, *self.more}:
            raise self.fault(1, 'The first line does not name these columns.', known)
        reader.fieldnames = names
        try:
            for row in reader:
                if None in row or None in row.values():
                    raise self.fault(reader.line_num, 'This line has another number of values.', known)
                yield Row(self, reader.line_num, {name: value.strip() for name, value in row.items()})
        except csv.Error as fault:
            raise self.fault(reader.line_num, 'This is not CSV: %s.' % fault, known) from None
