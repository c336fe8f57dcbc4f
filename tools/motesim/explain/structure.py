"""Corrections of a program's structure by rules: the order of its parts, blocks that don't end, and words instead of
operators. And the texts of programs with parameters of a plan, as programs without them."""
from __future__ import annotations

import re
from collections.abc import Callable, Iterator, Sequence

from motesim.explain.edits import Correction, Edit, hint
from motesim.notation.faults import ProgramError
from motesim.notation.grammar import PARAMETER
from motesim.notation.tokens import Token

# The parts of a program, and those of a code, in their order.
ORDERS = (('event', 'semaphore', 'process', 'autostart', 'receiver', 'code'),
          ('var', 'etimer', 'ctimer', 'thread', 'onpoll', 'onexit', 'body'))
# Operators that are words in other languages.
OPERATORS = {'and': '&&', 'or': '||', 'not': '!'}
ENDS = (';', '{', '}', '')


def indent_of(row: str) -> str:
    return row[:len(row) - len(row.lstrip())]


def is_alone(rows: Sequence[str], tokens: Sequence[Token]) -> bool:
    """Returns whether some tokens have a line of their own."""
    row = rows[tokens[0].line - 1].partition('//')[0].strip()
    return tokens[0].line == tokens[-1].line and row.startswith(tokens[0].text) and row.endswith(tokens[-1].text)


def late_part(source: str, tokens: Sequence[Token], at: int, fault: ProgramError) -> Iterator[Correction]:
    """A declaration that stands below a part that follows it in the order of a program or a code."""
    here = tokens[at]
    order = next((it for it in ORDERS if here.text in it), None)
    if order is None or fault.allows(here.text):
        return
    first = 0 if order is ORDERS[0] else max((it for it in range(at) if tokens[it].text == 'code'), default=0)
    later = order[order.index(here.text) + 1:]
    target = next((it for it in tokens[first:at] if it.text in later), None)
    if target is None:
        return
    rows, end = source.split('\n'), next((it for it in tokens[at:] if it.text in ENDS), here)
    row = rows[here.line - 1]
    above = rows[target.line - 1]
    is_moved = end.text == ';' and is_alone(rows, [here, end]) and above.lstrip().startswith(target.text)
    edits = (Edit(target.line, target.line - 1, (indent_of(above) + row.strip(),)), Edit(here.line, here.line, ()))
    yield hint('late-part', *edits * is_moved, word=here.text, whole='a program' if order is ORDERS[0] else 'a code',
               order=', '.join('`%s`' % it for it in order))


def open_block(source: str, tokens: Sequence[Token]) -> Iterator[Correction]:
    """A block without its end: the first whose closing line isn't indented as its opening one, or the last one."""
    if sum((it.text == '{') - (it.text == '}') for it in tokens) <= 0:
        return
    rows, opened = source.split('\n'), list[Token]()
    for it in tokens:
        if it.text == '{':
            opened.append(it)
        elif it.text == '}' and opened:
            own, its = rows[opened[-1].line - 1], rows[it.line - 1]
            if opened[-1].line != it.line and its.lstrip().startswith('}') and indent_of(own) != indent_of(its):
                break
            opened.pop()
    first = opened[-1]
    indent, head = indent_of(rows[first.line - 1]), rows[first.line - 1][:first.column].strip()
    below = (number for number, row in enumerate(rows[first.line:], first.line + 1)
             if row.strip() and len(indent_of(row)) <= len(indent))
    line = next(below, len(rows) + 1 if rows[-1].strip() else len(rows))
    yield hint('open-block', Edit(line, line - 1, (indent + '}',)), head=head)


def operators(source: str, tokens: Sequence[Token], at: int) -> str:
    """The text in which the words of a statement that are operators elsewhere are operators; the same text if there
    are none."""
    first = next((it for it in range(at - 1, -1, -1) if tokens[it].text in ENDS), -1) + 1
    last = next((it for it in range(at, len(tokens)) if tokens[it].text in ENDS), at)
    for it in reversed(tokens[first:last]):
        if it.text in OPERATORS:
            end = it.end + (it.text == 'not' and source[it.end:it.end + 1] == ' ')
            source = source[:it.begin] + OPERATORS[it.text] + source[end:]
    return source


def without_parameters(source: str) -> tuple[str, Callable[[str], str]]:
    """A program in which a number stands for each parameter of a plan, at the same place; and the way back."""
    numbers, free = dict[str, str](), (it for it in range(9999, 999, -1) if str(it) not in source)

    def number_of(found: re.Match[str]) -> str:
        number = next((it for it, text in numbers.items() if text == found[0]), None) or str(next(free))
        numbers[number] = found[0]
        return number.ljust(len(found[0]), '\t')

    def back(text: str) -> str:
        return re.sub(r'\b(%s)\t*' % '|'.join(numbers), lambda it: numbers[it[1]], text) if numbers else text
    return PARAMETER.sub(number_of, source), back
