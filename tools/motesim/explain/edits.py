"""Corrections as data: a code with facts, and lines of a text that become others. `motesim.explain.say` has their
texts."""
from __future__ import annotations

from collections.abc import Mapping, Sequence
from os.path import commonprefix
from typing import NamedTuple


class Edit(NamedTuple):
    """The lines `first` to `last` of a text, counted from 1, become `lines`. If `last` is one less than `first`, the
    lines are inserted above line `first`."""
    first: int
    last: int
    lines: tuple[str, ...]

    def below(self, offset: int) -> Edit:
        """The same edit of a text that has this one below some other lines."""
        return self._replace(first=self.first + offset, last=self.last + offset)


class Correction(NamedTuple):
    """A correction: the code of its hint, the facts of the hint, and the edits, the first lines first; without edits it
    is only advice."""
    code: str
    edits: tuple[Edit, ...] = ()
    facts: Mapping[str, object] = {}

    def below(self, offset: int) -> Correction:
        return self._replace(edits=tuple(it.below(offset) for it in self.edits))

    def applied(self, text: str) -> str:
        return applied(text, self.edits)


def hint(code: str, *edits: Edit, **facts: object) -> Correction:
    return Correction(code, edits, facts)


def applied(text: str, edits: Sequence[Edit]) -> str:
    """A text with some edits."""
    rows = text.split('\n')
    for it in sorted(edits, reverse=True):
        rows[it.first - 1:it.last] = it.lines
    return '\n'.join(rows)


def edit_between(old: str, new: str) -> Edit:
    """The edit that makes one text of another: the lines from the first to the last that differ."""
    rows, others = old.split('\n'), new.split('\n')
    first = len(commonprefix([rows, others]))
    same = len(commonprefix([rows[first:][::-1], others[first:][::-1]]))
    return Edit(first + 1, len(rows) - same, tuple(others[first:len(others) - same]))


def replaced(text: str, line: int, begin: int, end: int, new: str) -> Edit:
    """The edit of a part of a line, from one column to another."""
    row = text.split('\n')[line - 1]
    return Edit(line, line, tuple((row[:begin] + new + row[end:]).split('\n')))
