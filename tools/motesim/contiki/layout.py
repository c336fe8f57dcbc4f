"""Lines of C in Contiki's code style: two blanks for each level, at most 80 columns if a line can be broken."""
from __future__ import annotations

import re
import textwrap
from functools import lru_cache

WIDTH = 80
RULE = '/*%s*/' % ('-' * 75)
OPERATORS = frozenset('+ - * / % == != < <= > >= && || = ? :'.split())


def cleaned(comment: str) -> str:
    """A comment's text that is allowed between /* and */."""
    plain = comment if comment.isprintable() else ''.join(it if it.isprintable() else ' ' for it in comment)
    return re.sub(r'\?\?', '? ?', plain.replace('*/', '* /').replace('/*', '/ *')).strip()


def comment_lines(comments: list[str], indent: str) -> list[str]:
    """Comments above a line, as one comment of C."""
    texts = [cleaned(it) for it in comments]
    while texts and not texts[-1]:
        texts.pop()
    if not any(texts):
        return []
    lines = [line for text in texts for line in _wrapped(text, WIDTH - len(indent) - 6)]
    if len(lines) == 1:
        return ['%s/* %s */' % (indent, lines[0])]
    return ['%s/*' % indent] + [('%s * %s' % (indent, line)).rstrip() for line in lines] + ['%s */' % indent]


@lru_cache(1000)
def _wrapped(text: str, width: int) -> list[str]:
    """The lines of a text; those after the first of a bullet are indented."""
    return textwrap.wrap(text, width, break_long_words=False, break_on_hyphens=False,
                         subsequent_indent='  ' if text.startswith('- ') else '') or ['']


def code_lines(code: str, indent: str) -> list[str]:
    """A line of code, broken before operators and after commas if it is too long."""
    if len(indent) + len(code) <= WIDTH:
        return [indent + code]
    words: list[str] = []
    for word in code.split(' '):
        # (an operator stays with the word after it)
        if words and words[-1] in OPERATORS:
            words[-1] += ' ' + word
        else:
            words.append(word)
    lines: list[str] = []
    line, further = indent + words[0], indent
    for word in words[1:]:
        if len(line) + 1 + len(word) > WIDTH:
            lines.append(line)
            further = _further(lines, indent)
            line = further + word
        else:
            line += ' ' + word
    return [*lines, line]


def _further(lines: list[str], indent: str) -> str:
    """The indentation of the line that continues a broken one: it begins after the innermost open parenthesis."""
    open_at: list[int] = []
    for line in lines:
        for place, sign in enumerate(line):
            if sign == '(':
                open_at.append(place)
            elif sign == ')':
                open_at.pop()
    near = [it for it in open_at if it < WIDTH // 2]
    return ' ' * (near[-1] + 1) if near else indent + '    '
