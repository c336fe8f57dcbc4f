"""The declared format of packets: names for the parts of a packed value.

    fields = { origin = "value / 1024", seq = "value % 1024" }

Expectations may then say `with origin 5, seq 324`, and the tools show the fields behind a value.
"""
from __future__ import annotations

import ast
import re
from collections.abc import Mapping, Sequence
from functools import cache
from typing import NamedTuple

from motesim.faults import Fault
from motesim.notation.operators import VALUES, calculated

NAME = re.compile('[a-z][a-z0-9_]*')
# The kinds of lines whose last word is a packet's value or a printed one.
KINDS = ('print', 'send', 'recv')
SIGNS = {ast.Add: '+', ast.Sub: '-', ast.Mult: '*', ast.Div: '/', ast.Mod: '%'}
FORM = 'field `%s` is not a formula: write numbers, `value`, + - * / %% and parentheses, as in "value / 1024"'


class Field(NamedTuple):
    """A part of a value: its name, and the formula by which it follows from the value."""
    name: str
    formula: str

    def of(self, value: int) -> int:
        """The field of a value."""
        return all_of(self.formula)[value]

    def values(self, number: int) -> frozenset[int]:
        """The values of which this field is a number."""
        return frozenset(value for value, it in enumerate(all_of(self.formula)) if it == number)


@cache
def all_of(formula: str) -> tuple[int, ...]:
    """The field of each value. A formula that can't be calculated raises a `SyntaxError` or a `ValueError`."""
    body = ast.parse(formula.strip(), mode='eval').body
    return tuple(_calculated(body, value) for value in range(VALUES))


def _calculated(it: ast.expr, value: int) -> int:
    if isinstance(it, ast.BinOp) and type(it.op) in SIGNS:
        return calculated(SIGNS[type(it.op)], _calculated(it.left, value), _calculated(it.right, value))
    if isinstance(it, ast.Name) and it.id == 'value':
        return value
    if isinstance(it, ast.Constant) and type(it.value) is int and it.value < VALUES:
        return it.value
    raise ValueError(ast.dump(it))


def read_fields(table: Mapping[str, object]) -> tuple[Field, ...]:
    """The fields of a table `fields`."""
    found = []
    for name, formula in table.items():
        if not NAME.fullmatch(name) or type(formula) is not str:
            raise Fault(FORM % name)
        try:
            all_of(formula)
        except (SyntaxError, ValueError, RecursionError):
            raise Fault(FORM % name) from None
        found.append(Field(name, formula))
    return tuple(found)


def in_words(fields: Sequence[Field], value: int) -> str:
    """The fields of a value, such as ` (origin 5, seq 324)`; an empty text without a format."""
    return ' (%s)' % ', '.join('%s %d' % (it.name, it.of(value)) for it in fields) if fields else ''


def of_line(fields: Sequence[Field], words: str) -> str:
    """The fields of a line's value, from the line's words after the moment; an empty text if it has no such value."""
    its = words.split(' ')
    return in_words(fields, int(its[-1])) if fields and its[0] in KINDS else ''
