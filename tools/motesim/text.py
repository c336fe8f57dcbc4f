"""Words of messages: lines of a fixed width, the place of an error in a text, and the name that was most likely
meant."""
from __future__ import annotations

import difflib
import re
import textwrap
from collections.abc import Iterable, Sequence
from typing import Protocol

from motesim.terminal import one_line

WIDTH = 112
# (characters that a terminal would mistake for a command)
CONTROL = re.compile(r'[\x00-\x08\x0b-\x1f\x7f-\x9f]')


class Place(Protocol):
    """A part of a line: the line from 1, the column from 0."""
    @property
    def line(self) -> int: ...
    @property
    def column(self) -> int: ...
    @property
    def length(self) -> int: ...


class Shown(str):
    """A line that is shown as it is, such as one of a file."""


def wrapped(text: str) -> list[str]:
    return textwrap.wrap(text, WIDTH, subsequent_indent='  ', break_long_words=False, break_on_hyphens=False)


def folded(texts: Iterable[str]) -> list[str]:
    """Lines of texts, of which each is folded unless it is `Shown`."""
    return [row for it in texts for row in (wrapped(it) if type(it) is str else [it])]


def marked(line: str, column: int, length: int) -> list[Shown]:
    """A line with a mark under a part of it; for a long line, only the surroundings of that part."""
    begin = max(0, column - WIDTH // 2) if len(line) > WIDTH else 0
    shown, before = CONTROL.sub('\ufffd', line[begin:begin + WIDTH]), column - begin
    blank = re.sub(r'[^\t]', ' ', shown[:before])
    return [Shown('  ' + shown), Shown('  ' + blank + '^' * max(1, min(length, len(shown) - before)))]


def shown_place(name: str, text: str, place: Place) -> list[Shown]:
    """The lines that show a place of a file."""
    lines = text.split('\n')
    line = lines[place.line - 1].rstrip('\r') if place.line <= len(lines) else ''
    return [Shown('%s, line %d:' % (one_line(name), place.line)), *marked(line, place.column, place.length)]


def nearest(word: str, known: Iterable[str], least: float = 0.6) -> str | None:
    """The known word that is most similar to this one, if one is similar: with at least this ratio of difflib."""
    found = difflib.get_close_matches(word.lower(), list(known), 1, least)
    return found[0] if found and found[0] != word else None


def known(name: str, names: Sequence[str], others: Sequence[str] = ()) -> str:
    """The end of a message: the existing names, the measures, and the name that was most likely meant."""
    near = nearest(name, [*names, *others])
    more = '; and the measures: %s' % ', '.join(others) if others else ''
    return 'there are: %s%s%s' % (', '.join(names), more, '; did you mean %s?' % near if near else '')
