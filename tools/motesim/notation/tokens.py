"""The tokens of a program's text. Together they are the whole text: each has the blanks and comments in front of it."""
from __future__ import annotations

import re
from collections.abc import Iterable
from functools import lru_cache
from typing import NamedTuple

from motesim.notation.grammar import LONGEST_NAME, RESERVED, SIGNS

# (if two signs are possible, the longer one counts; a blank is matched at the end of the text, too)
_SIGN = '|'.join(map(re.escape, sorted(SIGNS, key=len, reverse=True)))
TOKEN = re.compile(r'((?:[ \t\r\n]|//[^\n]*)*)([a-z0-9_]+|%s|.|\Z)' % _SIGN, re.S)
COMMENT = re.compile(r'//([^\n]*)')


class Token(NamedTuple):
    """A word or a sign. Its line is counted from 1, its column and its place `begin` in the text from 0, and its number
    among the tokens from 0; `before` are the blanks and comments in front of it. The end of the text is the token
    ''."""
    text: str
    line: int = 0
    column: int = 0
    begin: int = 0
    before: str = ''
    number: int = 0

    @property
    def kind(self) -> str:
        """end, keyword, name, number, sign or bad."""
        return kind_of(self.text)

    @property
    def end(self) -> int:
        return self.begin + len(self.text)


@lru_cache(4096)
def kind_of(text: str) -> str:
    if not text:
        return 'end'
    if text in RESERVED:
        return 'keyword'
    if re.fullmatch('0|[1-9][0-9]*', text):
        return 'number'
    if re.fullmatch('[a-z][a-z0-9_]*', text):
        return 'name' if len(text) <= LONGEST_NAME else 'bad'
    return 'sign' if text in SIGNS else 'bad'


def tokens_of(text: str) -> list[Token]:
    """The tokens of a text, and its end."""
    found: list[Token] = []
    line, begin = 1, 0
    for it in TOKEN.finditer(text):
        before, word = it[1], it[2]
        at = it.start(2)
        lines = before.count('\n')
        if lines:
            line, begin = line + lines, text.rfind('\n', 0, at) + 1
        found.append(Token(word, line, at - begin, at, before, len(found)))
        if not word:
            break
    return found


def text_of(tokens: Iterable[Token]) -> str:
    """The text that has these tokens."""
    return ''.join(it.before + it.text for it in tokens)
