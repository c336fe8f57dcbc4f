"""The places of tables, keys and values in the text of a scenario or a plan, which may have errors."""
from __future__ import annotations

import re
from collections import Counter
from dataclasses import dataclass
from functools import lru_cache

from motesim.toml import MARK

# A table or a key: the names and the numbers that lead to it.
Path = tuple[str | int, ...]
# The offsets of the first character of a part of the text, and of the first one after it.
Span = tuple[int, int]
# (motesim allows fewer levels of arrays and tables)
DEEPEST = 200
KEY = r'(?:[A-Za-z0-9_-]+|"[^"\n]*"|\'[^\'\n]*\')'
DOTTED = r'%s(?:[^\S\n]*\.[^\S\n]*%s)*' % (KEY, KEY)
HEADER = re.compile(r'[^\S\n]*(\[\[?)[^\S\n]*(%s)[^\S\n]*\]\]?' % DOTTED)
ENTRY = re.compile(r'[^\S\n]*(%s)[^\S\n]*=' % DOTTED)
# Texts, comments, the characters that divide a value, and other words; blanks are between them.
PIECE = re.compile(r'''
    (?P<blank> [^\S\n]+ | \#[^\n]* )
  | (?P<text> """ .*? (?: """+ | \Z ) | \'\'\' .*? (?: \'\'\'+ | \Z ) | "(?:[^"\\\n]|\\.)*" | '[^'\n]*' )
  | (?P<sign> [][{},=\n] )
  | (?P<word> [^][{},=\#"'\s]+ )
''', re.VERBOSE | re.DOTALL)


@dataclass(frozen=True)
class Place:
    """A place in a text: the line from 1, the column from 0, and the number of characters."""
    line: int
    column: int
    length: int


class NoEnd(Exception):
    """A value that doesn't end, or that is nested too deeply."""


def names_of(dotted: str) -> tuple[str, ...]:
    return tuple(it.strip('"\'') for it in re.findall(KEY, dotted))


class Places:
    """The parts of a text, by their paths.

    own     the tables and keys on lines of their own
    keys    the keys in inline tables
    values  the values of all keys, and the members of inline arrays
    """

    def __init__(self, text: str):
        self.text = text
        self.own, self.keys, self.values = dict[Path, Span](), dict[Path, Span](), dict[Path, Span]()
        counts, table, at = Counter[Path](), Path(), int(text.startswith(MARK))
        while at < len(text):
            header, entry = HEADER.match(text, at), ENTRY.match(text, at)
            if header:
                table = names = names_of(header[2])
                if header[1] == '[[':
                    table = (*names, counts[names])
                    counts[names] += 1
                for path in table, names:
                    self.own.setdefault(path, (header.start(1), header.end()))
            elif entry:
                names = names_of(entry[1])
                for length in range(1, len(names) + 1):
                    self.own.setdefault((*table, *names[:length]), entry.span(1))
                at = self.after_value((*table, *names), entry.end())
            at = self.after_line(at)

    def after_line(self, at: int) -> int:
        """The offset after a line, and after the texts of several lines that begin on it."""
        while at < len(self.text):
            piece = PIECE.match(self.text, at)
            at = piece.end() if piece else at + 1
            if piece and piece[0] == '\n':
                break
        return at

    def after_value(self, path: Path, at: int) -> int:
        """The offset after the value of a key, or after the key if no value follows on its line."""
        piece = PIECE.match(self.text, at)
        first = piece.end() if piece and piece['blank'] else at
        try:
            return at if self.text[first:first + 1] in ('', '\n') else self.value(path, first)
        except NoEnd:
            for found in self.keys, self.values:
                for inner in [it for it in found if it[:len(path)] == path]:
                    del found[inner]
            return at

    def piece(self, at: int) -> re.Match[str]:
        """The first piece from an offset on that isn't blank."""
        while piece := PIECE.match(self.text, at):
            if not piece['blank'] and piece[0] != '\n':
                return piece
            at = piece.end()
        raise NoEnd

    def value(self, path: Path, at: int) -> int:
        """Notes a value with its members, and returns the offset after it."""
        piece = self.piece(at)
        if len(path) > DEEPEST or (piece['sign'] or '[') not in '[{':
            raise NoEnd
        end = self.members(path, piece) if piece['sign'] else piece.end()
        self.values.setdefault(path, (piece.start(), end))
        return end

    def members(self, path: Path, opened: re.Match[str]) -> int:
        """Notes the members of an inline array or table, and returns the offset after it."""
        at, number = opened.end(), 0
        while (piece := self.piece(at))[0] not in (']', '}'):
            at = piece.end()
            if piece[0] == ',':
                number += 1
            elif opened[0] == '[':
                at = self.value((*path, number), piece.start())
            elif self.piece(at)[0] == '=':
                inner = (*path, piece[0].strip('"\''))
                self.keys.setdefault(inner, piece.span())
                at = self.value(inner, self.piece(at).end())
            else:
                raise NoEnd
        return piece.end()

    def at(self, span: Span) -> Place:
        """The place of a part of the text, or of its first line."""
        begin, end = span
        end = min(end, self.text.find('\n', begin) % (len(self.text) + 1))
        return Place(self.text.count('\n', 0, begin) + 1, begin - self.text.rfind('\n', 0, begin) - 1, end - begin)


@lru_cache(maxsize=8)
def places(text: str) -> Places:
    """The places in a text."""
    return Places(text)


def place_of(text: str, path: Path) -> Place:
    """The place of a table or a key, or of the nearest table above it; the place of the text is its first line."""
    found = places(text)
    for length in range(len(path), 0, -1):
        for spans in found.own, found.keys, found.values:
            if path[:length] in spans:
                return found.at(spans[path[:length]])
    return Place(1, 0, len(text.split('\n')[0]))


def value_of(text: str, path: Path) -> Place:
    """The place of the value of a key, if it is known; otherwise that of the key, or of the nearest table above it."""
    found = places(text)
    return found.at(found.values[path]) if path in found.values else place_of(text, path)
