"""What operators calculate: numbers of 16 bits, and 0 for a division by 0."""
from __future__ import annotations

import operator
from collections.abc import Callable

VALUES = 1 << 16


def divided(a: int, b: int) -> int:
    return a // b if b else 0


def remainder(a: int, b: int) -> int:
    return a % b if b else 0


# The results of arithmetic, before they are cut to 16 bits; and those of tests.
ARITHMETIC: dict[str, Callable[[int, int], int]] = {
    '+': operator.add, '-': operator.sub, '*': operator.mul, '/': divided, '%': remainder}
TESTS: dict[str, Callable[[int, int], bool]] = {
    '==': operator.eq, '!=': operator.ne, '<': operator.lt, '<=': operator.le, '>': operator.gt, '>=': operator.ge,
    '&&': lambda a, b: a != 0 and b != 0, '||': lambda a, b: a != 0 or b != 0}


def calculated(sign: str, left: int, right: int) -> int:
    """The value of an operation."""
    return int((ARITHMETIC.get(sign) or TESTS[sign])(left, right)) % VALUES
