"""What people write who come from other languages: the patterns of habits.toml, and the corrections of lines that have
one. Only that file knows about other languages."""
from __future__ import annotations

import re
import tomllib
from collections.abc import Iterator, Mapping
from functools import cache
from pathlib import Path
from typing import NamedTuple

from motesim.explain.edits import Correction, hint, replaced
from motesim.notation.faults import ProgramError
from motesim.notation.grammar import RESERVED

PIECE = re.compile(r'<\w+>|\w+|[^\w\s]')
FORMS = {'number': r'\d+', 'value': r'[^;]+?', 'rest': r'[^;]+?', 'text': r'"[^"]*"', 'sign': r'[-+*/%]',
         'function': r'(?!(?:%s)\b)[a-z]\w*' % '|'.join(sorted(RESERVED))}
# A longer line isn't looked at.
LONGEST = 400
# Those that don't begin and end with a letter or digit.
NO_WORDS = ('sign', 'text', 'value', 'rest')
WORD = 'a word'


class Habit(NamedTuple):
    """What is written, what it becomes (None for advice only), and why."""
    written: re.Pattern[str]
    becomes: str | None
    why: str


def pattern_of(written: str, forms: Mapping[str, str]) -> re.Pattern[str]:
    """A pattern in which blanks may stand between all words and signs. A name that occurs twice is the same word."""
    found, last, known = '', '', set[str]()
    for it in PIECE.findall(written):
        name = it[1:-1] if it[0] == '<' else ''
        form = forms.get(name, r'[a-zA-Z_]\w*')
        is_word = name not in NO_WORDS and not re.fullmatch(form, '') if name else it[0].isalnum()
        if found:
            found += '' if last in '+-' and it == last else r'\s+' if is_word and last == WORD else r'\s*'
        elif is_word:
            found += r'\b'
        group = '(?P=%s)' % name if name in known else '(?P<%s>%s)' % (name, form)
        found += group if name else re.escape(it)
        last = WORD if is_word else it
        known.add(name)
    return re.compile(found + (r'\b' if last == WORD else ''))


@cache
def habits() -> tuple[Habit, ...]:
    read = tomllib.loads(Path(__file__).with_name('habits.toml').read_text('utf-8'))
    forms = {**FORMS, **read['forms']}
    return tuple(Habit(pattern_of(it['written'], forms), it.get('becomes'), it['why']) for it in read['habit'])


def of_line(source: str, fault: ProgramError) -> Iterator[Correction]:
    """The corrections of the line of a fault, for each pattern at the fault's place."""
    line, column = fault.token.line, fault.token.column
    row = source.split('\n')[line - 1].partition('//')[0]
    for it in habits() if len(row) <= LONGEST else ():
        for found in it.written.finditer(row):
            if not found.start() <= column < found.end():
                continue
            edits = []
            if it.becomes is not None:
                new = re.sub(r'<(\w+)>', lambda name: found[name[1]].strip(), it.becomes)
                edits.append(replaced(source, line, *found.span(), new))
            yield hint('habit', *edits, why=it.why)
