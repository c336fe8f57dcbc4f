"""Warnings about values: tests that always have the same result, and results that don't fit into 16 bits."""
from __future__ import annotations

from collections.abc import Iterator

from motesim.explain.warned import Warned, of_token
from motesim.notation.operators import ARITHMETIC, VALUES
from motesim.notation.tree import Code, Operation, Program, Statement, Value
from motesim.notation.printer import written
from motesim.notation.tree import constant_of, expressions_of, is_number

ORDER = ('<', '<=', '>', '>=')
MIRRORED = {'<': '>', '>': '<', '<=': '>=', '>=': '<='}
# Tests of a difference that are true if both sides differ, and those that are true only if they are equal.
ABOVE, AT_MOST = (('>', '0'), ('>=', '1')), (('<=', '0'), ('<', '1'))


def of_values(name: str, program: Program) -> Iterator[Warned]:
    for code in program.codes:
        fixed = fixed_in(code)
        for part in code.parts:
            for it in expressions_of(part.block):
                if isinstance(it, Operation):
                    yield from of_test(name, it)
                    yield from of_sum(name, it, fixed)
        for statement in code.statements():
            yield from of_value(name, statement, fixed)


def fixed_in(code: Code) -> dict[str, int]:
    """The variables of a code to which no statement assigns, with their values."""
    assigned = {it.name for it in code.statements() if it.kind == '='} | {
        it.into for it in code.statements()}
    return {name: value for name, value in code.variables.items() if name not in assigned}


def exact(it: Operation, fixed: dict[str, int]) -> int | None:
    """The value of a calculation with numbers, before it is cut to 16 bits; None if it isn't known."""
    left, right, work = constant_of(it.left, fixed), constant_of(it.right, fixed), ARITHMETIC.get(it.token.text)
    return None if left is None or right is None or work is None else work(left, right)


def of_test(name: str, it: Operation) -> Iterator[Warned]:
    sign, left, right = it.token.text, it.left, it.right
    if sign in ORDER and isinstance(left, Operation) and left.token.text in ORDER:
        yield of_token('compared-twice', name, it.token, inner=written(left), test=written(it))
    if is_number(left) and sign in MIRRORED:
        sign, left, right = MIRRORED[sign], right, left
    if not is_number(right) or is_number(left):
        return
    if sign in ('<', '>=') and written(right) == '0':
        yield of_token('never-negative', name, it.token, test=written(it), result='never' if sign == '<' else 'always')
    if isinstance(left, Operation) and left.token.text == '-' and not is_time(left):
        test = (sign, written(right))
        if test in ABOVE or test in AT_MOST:
            yield of_token('difference-above-0', name, it.token, test=written(it), left=written(left.left),
                           right=written(left.right), sign='>' if test in ABOVE else '<=')


def is_time(it: Operation) -> bool:
    """Returns whether a difference may be the time since an earlier moment, or has two numbers."""
    return is_number(it.left) and is_number(it.right) or written(it.left) == 'now' and not is_number(it.right)


def of_sum(name: str, it: Operation, fixed: dict[str, int]) -> Iterator[Warned]:
    value = exact(it, fixed) if it.token.text in '+*' else None
    if value is not None and value >= VALUES:
        yield of_token('too-large', name, it.token, sum=written(it), value='{:,}'.format(value),
                       result='{:,}'.format(value % VALUES))


def of_value(name: str, it: Statement, fixed: dict[str, int]) -> Iterator[Warned]:
    if it.kind in ('print', 'send') and isinstance(it.value, Value) and fixed.get(it.value.token.text) == 0:
        yield of_token('never-assigned', name, it.value.token, variable=it.value.token.text, value=0)
    time = exact(it.value, fixed) if it.kind == 'set' and isinstance(it.value, Operation) else None
    if it.value and time is not None and time <= 0:
        yield of_token('no-time', name, it.token, value=written(it.value),
                       result='0' if not time else 'below 0 (%s)' % '{:,}'.format(time % VALUES),
                       due='at once' if not time else 'after %s' % '{:,}'.format(time % VALUES))
