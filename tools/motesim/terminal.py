"""The text that tools print: names that somebody else chose, such as those of files and programs, can't control a
terminal.

Each command prints through a `Plain`, which shows a control character as its number. Tables, in which each row is one
line, use `one_line` for the names in them.
"""
from __future__ import annotations

import os
import re
import sys
from typing import Any, TextIO, cast

from motesim.typed import as_typed

# The control characters, except the tab and the end of a line.
OBEYED = re.compile(r'[\x00-\x08\x0b\x0c\x0e-\x1f\x7f-\x9f]|\r(?!\n)')
CLEAR = '\r\033[K'


def escaped(sign: str) -> str:
    return sign.encode('unicode_escape').decode('ascii')


def plain(text: str) -> str:
    """A text with its control characters shown as numbers."""
    return OBEYED.sub(lambda found: escaped(found[0]), text)


def one_line(text: str) -> str:
    """A text in one line, with nothing in it that a terminal, a table or a page could mistake for something else."""
    text = os.fsencode(text).decode('utf-8', 'backslashreplace')
    return ''.join(sign if sign.isprintable() else escaped(sign) for sign in text)


def cut(text: str, most: int) -> str:
    """A text of at most this many characters: a longer one without its middle."""
    if len(text) <= most:
        return text
    begin = (most - 1) // 2
    return text[:begin] + '..' + text[begin + 2 - most:]


class Plain:
    """A stream to which only plain text is written, with the names of commands as the user types them."""

    def __init__(self, stream: TextIO):
        self.stream = stream

    def write(self, text: str) -> int:
        return self.stream.write(as_typed(plain(text)))

    def __getattr__(self, name: str) -> Any:
        return getattr(self.stream, name)


def plain_stream(stream: TextIO) -> TextIO:
    """A stream of the command, wrapped so that only plain text is written to it."""
    return stream if isinstance(stream, Plain) else cast(TextIO, Plain(stream))


def write_over(text: str) -> None:
    """Writes a text over the last line of standard error, which is a terminal."""
    stream = sys.stderr.stream if isinstance(sys.stderr, Plain) else sys.stderr
    stream.write(CLEAR + plain(text))
    stream.flush()
