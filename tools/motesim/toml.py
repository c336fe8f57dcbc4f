"""The only module in which the tools read TOML.

`read_toml(text)` returns the tables, or raises a `NoToml` with the place. Python's own reader fails in three ways (a
text that isn't TOML, arrays nested deeper than its stack, a number with thousands of digits); here all three raise
`NoToml`. Python's reader needs hours for a key of many parts, so the parts of keys are counted before it reads. The
limits are those of `motesim` itself.
"""
from __future__ import annotations

import re
import tomllib
from collections.abc import Iterator
from typing import Any

from motesim.faults import Fault

MARK = '\ufeff'
PLACE = re.compile(r' \(at (?:line (\d+), column (\d+)|end of document)\)$')
# The most parts of a key, and the deepest nesting of arrays and inline tables.
DEEPEST = 80
MANY_PARTS = 'A key has more than %d parts: write fewer dots' % DEEPEST
TOO_DEEP = 'Arrays or tables are nested too deeply: at most %d levels are allowed' % DEEPEST
TOO_LONG = 'A number has too many digits'
# Messages that aren't Python's.
OURS = MANY_PARTS, TOO_DEEP, TOO_LONG

PART = re.compile(r'''[A-Za-z0-9_-]++|"(?:[^"\\\n]|\\.)*+"|'[^'\n]*+\'''')
# Texts and comments, in which dots and brackets mean nothing; outside them, keys with all their parts, and brackets.
# (A text of several lines always matches, so its repetitions needn't be possessive; Python 3.11.2 fails on possessive
# ones.)
PIECE = re.compile(r"""
    (?P<text> "{3} (?:[^"\\]+|\\(?:.|\Z)|"(?!""))* (?:"{3,5}|\Z)
            | '{3} (?:[^']+|'(?!''))* (?:'{3,5}|\Z)
            | \#[^\n]*+ )
  | (?P<key> (?:PART) (?: [ \t]*+ \. [ \t]*+ (?:PART) )*+ )
  | (?P<bracket> [][{}] )
""".replace('PART', PART.pattern), re.VERBOSE | re.DOTALL)


class NoToml(Fault):
    """A text that isn't TOML: the reason, and the line (from 1) and column (from 0) of the first error."""

    def __init__(self, said: str, line: int, column: int):
        super().__init__('%s (at line %d, column %d)' % (said, line, column + 1))
        self.said, self.line, self.column = said, line, column

    @property
    def shown(self) -> str:
        """The reason; if Python wrote it, a remark before it says so."""
        return self.said if self.said in OURS else 'Python says: %s' % self.said


def read_toml(text: str) -> dict[str, Any]:
    """The tables of a text, which may begin with a byte order mark."""
    text = text.removeprefix(MARK)
    check_keys(text)
    try:
        tables = tomllib.loads(text)
    except RecursionError:
        check_brackets(text)
        said, place = TOO_DEEP, None
    except tomllib.TOMLDecodeError as fault:
        place = PLACE.search(str(fault))
        said = PLACE.sub('', str(fault))
    except ValueError:
        said, place = TOO_LONG, None
    else:
        if is_deep(tables):
            check_brackets(text)
        return tables
    if place and place[1]:
        raise NoToml(said, int(place[1]), int(place[2]) - 1)
    raise at(text, len(text), said)


def at(text: str, offset: int, said: str) -> NoToml:
    """The error at an offset of a text."""
    return NoToml(said, text.count('\n', 0, offset) + 1, offset - text.rfind('\n', 0, offset) - 1)


def pieces(text: str) -> Iterator[re.Match[str]]:
    """The keys, the brackets, and the texts of several lines and comments of a text, in their order."""
    return PIECE.finditer(text)


def check_keys(text: str) -> None:
    """Raises a `NoToml` at a key with too many parts."""
    if text.count('.') < DEEPEST:
        return
    for piece in pieces(text):
        if piece['key'] and piece['key'].count('.') >= DEEPEST and len(PART.findall(piece['key'])) > DEEPEST:
            raise at(text, piece.start(), MANY_PARTS)


def check_brackets(text: str) -> None:
    """Raises a `NoToml` at the first bracket that is nested too deeply."""
    depth = 0
    for piece in pieces(text):
        if piece['bracket']:
            depth += 1 if piece['bracket'] in '[{' else -1
            if depth > DEEPEST:
                raise at(text, piece.start(), TOO_DEEP)


def is_deep(tables: dict[str, Any]) -> bool:
    """True if tables and arrays are nested more deeply than is allowed."""
    level: list[Any] = [tables]
    for _ in range(DEEPEST + 1):
        members = [it for one in level for it in (one.values() if isinstance(one, dict) else one)]
        level = [it for it in members if isinstance(it, (dict, list))]
    return bool(level)
