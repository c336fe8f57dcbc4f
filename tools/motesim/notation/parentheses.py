"""Writes an expression as the notation wants it: people write as in C, but the notation has no precedence of operators,
and parentheses only around an operator and its two values.

`rewritten(tokens, at)` reads the expression around a token as in C.
"""
from __future__ import annotations

from collections.abc import Sequence

from motesim.notation.grammar import ANY, TESTS, VALUES
from motesim.notation.tokens import Token

# The operators, in the order of precedence, the highest first.
ORDER = (('*', '/', '%'), ('+', '-'), ('<', '<=', '>', '>='), ('==', '!='), ('&&',), ('||',))
# Keywords of expressions.
INSIDE = frozenset((*TESTS, 'is', *VALUES))
ENDS = frozenset(';{}=,')
MOST_TOKENS = 24


def _is_outside(tokens: Sequence[Token], at: int) -> bool:
    """Returns whether a token is in no expression. (An event is in one only between the parentheses of a test.)"""
    token, around = tokens[at], [it.text for it in (*tokens[at - 1:at], *tokens[at + 1:at + 2])]
    if token.kind == 'keyword':
        return token.text not in INSIDE and not (token.text in ANY and around == ['(', ')'])
    return token.kind == 'end' or token.text in ENDS


def _are_two_values(before: Token, here: Token) -> bool:
    """Returns whether a value ends and another begins, as in `set t 10`: then the second value is a separate one."""
    is_end = before.kind in ('name', 'number') or before.text in (')', *VALUES)
    return is_end and (here.kind in ('name', 'number') or here.text == '(' or here.text in INSIDE)


def _reach(tokens: Sequence[Token], at: int, step: int) -> int:
    """The last token in one direction that may belong to the expression around a token."""
    while 0 <= at + step < len(tokens) and not _is_outside(tokens, at + step):
        if _are_two_values(*(tokens[it] for it in sorted((at, at + step)))):
            break
        at += step
    return at


class _Reader:
    """Reads an expression as in C. Raises ValueError or IndexError if there is none."""

    def __init__(self, tokens: Sequence[Token]) -> None:
        self.left = [*reversed(tokens)]

    def take(self, *texts: str) -> str:
        """The next token's text, if it is one of these."""
        return self.left.pop().text if self.left and self.left[-1].text in texts else ''

    def close(self) -> None:
        if not self.take(')'):
            raise ValueError

    def operation(self, level: int = len(ORDER)) -> str:
        """An operation with an operator of this level or a higher one, with all its parentheses; or a value."""
        if level == 0:
            return self.value()
        found = self.operation(level - 1)
        while sign := self.take(*ORDER[level - 1]):
            found = '(%s %s %s)' % (found, sign, self.operation(level - 1))
        return found

    def value(self) -> str:
        if self.take('!'):
            return '!' + self.value()
        if self.take('('):
            found = self.operation()
            self.close()
            return found
        here = self.left.pop()
        if here.text in (*TESTS, 'is') and self.take('('):
            name = self.left.pop()
            self.close()
            return '%s(%s)' % (here.text, name.text)
        if here.kind not in ('name', 'number') and here.text not in VALUES:
            raise ValueError
        return here.text


def rewritten(tokens: Sequence[Token], at: int) -> tuple[Token, Token, str] | None:
    """The first and the last token of the expression around a token, and the expression with the parentheses that it
    needs; None if there is no expression, or it has them."""
    first, last = _reach(tokens, at, -1), _reach(tokens, at, 1)
    reader = _Reader(tokens[first:last + 1][:MOST_TOKENS])
    try:
        whole = reader.operation()
    except (IndexError, ValueError):
        return None
    is_same = whole.replace(' ', '') == ''.join(it.text for it in tokens[first:last + 1])
    return None if reader.left or is_same or last - first >= MOST_TOKENS else (tokens[first], tokens[last], whole)
