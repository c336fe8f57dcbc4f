"""Smaller programs: all single steps from a program to a smaller one.

After each step a program has fewer words, or a number instead of a name, or a smaller number. So each sequence of steps
is finite. Some results aren't programs, for instance if a removed variable is still used; callers have to check this.
"""
from __future__ import annotations

from collections.abc import Callable, Iterator, Sequence
from typing import TypeVar

from motesim.notation.tree import Block, Code, Declaration, Expression, Not, Operation, Program, Statement, Test, Value
from motesim.notation.tree import word

T = TypeVar('T')


def smaller_numbers(number: int) -> Iterator[int]:
    """Smaller numbers: 0, then numbers that are nearer and nearer to this one."""
    half, seen = number, set[int]()
    while half:
        found = number - half
        if found not in seen:
            seen.add(found)
            yield found
        half //= 2


def without(members: tuple[T, ...], at: int) -> tuple[T, ...]:
    return members[:at] + members[at + 1:]


def instead(members: tuple[T, ...], at: int, *others: T) -> tuple[T, ...]:
    return members[:at] + others + members[at + 1:]


def number(value: int) -> Value:
    return Value(word(value))


def expressions(it: Expression) -> Iterator[Expression]:
    """Smaller expressions."""
    is_number = isinstance(it, Value) and it.is_number
    yield from map(number, smaller_numbers(int(it.token.text)) if is_number else (0, 1))
    if isinstance(it, Not):
        yield it.inner
        for inner in expressions(it.inner):
            yield it._replace(inner=inner)
    elif isinstance(it, Operation):
        yield it.left
        yield it.right
        for left in expressions(it.left):
            yield it._replace(left=left)
        for right in expressions(it.right):
            yield it._replace(right=right)


def blocks(block: Block) -> Iterator[Block]:
    """Smaller blocks, after the large steps first: without a statement, or with its inner block in its place."""
    for at in range(len(block)):
        yield without(block, at)
    for at, it in enumerate(block):
        if it.has_blocks:
            yield instead(block, at, *it.block)
        if it.otherwise is not None:
            yield instead(block, at, *it.otherwise)
    for at, it in enumerate(block):
        for other in statements(it):
            yield instead(block, at, other)


def statements(it: Statement) -> Iterator[Statement]:
    """Smaller forms of one statement."""
    if it.into:
        yield it._replace(into='')
    if it.otherwise is not None:
        yield it._replace(otherwise=None)
    for block in blocks(it.block):
        yield it._replace(block=block)
    for block in blocks(it.otherwise or ()):
        yield it._replace(otherwise=block)
    for value in expressions(it.value) if it.value else ():
        yield it._replace(value=value)


def declared(its: tuple[Declaration, ...]) -> Iterator[tuple[Declaration, ...]]:
    """Fewer declarations, and those with a smaller number."""
    for at, it in enumerate(its):
        yield without(its, at)
        for less in smaller_numbers(it.number):
            yield instead(its, at, it._replace(number=less))


def codes(code: Code) -> Iterator[Code]:
    """Smaller codes of a process."""
    for at in range(len(code.parts) - 1):
        yield code._replace(parts=without(code.parts, at))
    for at, part in enumerate(code.parts):
        for block in blocks(part.block):
            yield code._replace(parts=instead(code.parts, at, part._replace(block=block)))
    for its in declared(code.declared):
        yield code._replace(declared=its)


OF_PROCESSES = ('post', 'synch', 'poll', 'start', 'kill')
# A change of a value or a test in an expression.
Change = Callable[[Value | Test], Expression]


def _mapped(it: Expression, change: Change) -> Expression:
    if isinstance(it, Not):
        return it._replace(inner=_mapped(it.inner, change))
    if isinstance(it, Operation):
        return it._replace(left=_mapped(it.left, change), right=_mapped(it.right, change))
    return change(it)


def _mapped_block(block: Block, change: Change, stays: Callable[[Statement], bool]) -> Block:
    """A block with the statements that stay, and with changed expressions."""
    return tuple(it._replace(value=it.value and _mapped(it.value, change), block=_mapped_block(it.block, change, stays),
                             otherwise=None if it.otherwise is None else _mapped_block(it.otherwise, change, stays))
                 for it in block if stays(it))


def _mapped_codes(codes: tuple[Code, ...], change: Change, stays: Callable[[Statement], bool] = lambda it: True
                  ) -> tuple[Code, ...]:
    return tuple(code._replace(parts=tuple(it._replace(block=_mapped_block(it.block, change, stays))
                                           for it in code.parts)) for code in codes)


def without_process(program: Program, process: str) -> Program:
    """A program without a process and without the statements that name it; tests of the process become 0."""
    def change(it: Value | Test) -> Expression:
        names_it = isinstance(it, Test) and it.token.text in ('gone', 'running') and it.of == process
        return number(0) if names_it else it
    left = _mapped_codes(tuple(code for code in program.codes if code.process.text != process), change,
                         lambda it: it.kind not in OF_PROCESSES or it.name != process)
    is_receiver = program.receiver is not None and program.receiver.text == process
    return program._replace(autostart=tuple(it for it in program.autostart if it.text != process), codes=left,
                            receiver=None if is_receiver else program.receiver)


def renumbered(program: Program, numbers: Sequence[int]) -> Program:
    """A program in which `self` and `from` are the numbers that the motes had before: `numbers` has those of the
    present motes, in rising order."""
    def change(it: Value | Test) -> Expression:
        return _before(it, numbers) if isinstance(it, Value) and it.token.text in ('self', 'from') else it
    return program._replace(codes=_mapped_codes(program.codes, change))


def _before(value: Value, numbers: Sequence[int]) -> Expression:
    """The number that a mote had before: its present one, and the lengths of the gaps below it."""
    found: Expression = value
    for mote, before in enumerate(numbers):
        gap = before - (numbers[mote - 1] + 1 if mote else 0)
        if gap:
            is_later = Operation(word('>='), value, number(mote))
            more: Expression = Operation(word('*'), number(gap), is_later) if mote else number(gap)
            found = Operation(word('+'), found, more)
    return found


def programs(program: Program) -> Iterator[Program]:
    """All programs that are one step smaller, after the large steps first."""
    if len(program.codes) > 1:
        for code in program.codes:
            yield without_process(program, code.process.text)
    for at in range(len(program.autostart)):
        yield program._replace(autostart=without(program.autostart, at))
    if program.receiver:
        yield program._replace(receiver=None)
    for at, code in enumerate(program.codes):
        for other in codes(code):
            yield program._replace(codes=instead(program.codes, at, other))
    for its in declared(program.declared):
        yield program._replace(declared=its)


def statements_in(program: Program) -> int:
    """The number of statements of a program."""
    return sum(1 for _ in program.statements())
