"""A program as the replay runs it: what it declares by numbers, and its statements, each with its value as a function
of the replay: docs/use/LANGUAGE.md describes each statement."""
from __future__ import annotations

from collections.abc import Callable
from dataclasses import dataclass, field
from typing import TYPE_CHECKING, NamedTuple, TypeAlias

from motesim.notation import tree
from motesim.notation.operators import calculated
from motesim.notation.printer import head_of
from motesim.notation.reader import read_program
from motesim.scenario.in_programs import ProgramPlace
from motesim.terminal import one_line

if TYPE_CHECKING:
    from motesim.replay.mote import Replay

Value: TypeAlias = 'Callable[[Replay], int]'
# The values that aren't variables; and the tests of something, by its name and its number.
VALUES: dict[str, Value] = {
    'data': lambda k: k.called.word, 'from': lambda k: k.called.sender, 'now': lambda k: k.now & 65535,
    'self': lambda k: k.mote}
TESTS: dict[str, Callable[[Replay, str, int], bool | int]] = {
    'is': lambda k, name, number: k.called.event == name,
    'fired': lambda k, name, number: k.called.event == 'timer' and k.called.word == number,
    'expired': lambda k, name, number: k.timers[number].owner is None,
    'gone': lambda k, name, number: k.called.event == 'exited' and k.called.word == number,
    'running': lambda k, name, number: k.state[number] != 0,
    'count': lambda k, name, number: k.counts[number]}


class Around(NamedTuple):
    """A statement around another one, by its number: an `if` or a `while`. `is_else` is true if the other statement is
    in the `else` of this one."""
    number: int
    is_else: bool


@dataclass(eq=False)
class Statement:
    """A statement of a program.

    number   its number, from 1, in the order of the text
    process  the number of the process in whose code it is, and `part` the kind of the block of this code
    around   the statements around it, the outer ones first
    value    its value, if it has one; and the same number if that is always the value
    target   the number of the process, the timer or the semaphore that it names; otherwise -1
    """
    number: int
    its: tree.Statement
    process: int
    part: str
    around: tuple[Around, ...]
    value: Value
    constant: int | None
    target: int
    block: list[Statement] = field(default_factory=list)
    otherwise: list[Statement] = field(default_factory=list)

    @property
    def kind(self) -> str:
        """Its first word; `=` if it assigns to a variable."""
        return self.its.kind

    @property
    def line(self) -> int:
        """The line on which it begins."""
        return self.its.token.line

    @property
    def text(self) -> str:
        """Its text, without the statements in its blocks."""
        return head_of(self.its)


Block: TypeAlias = list[Statement]


@dataclass
class Process:
    """A process of a program: its variables with their first values, its blocks `body`, `onpoll` and `onexit`, and its
    threads."""
    name: str
    number: int
    variables: dict[str, int]
    blocks: dict[str, Block] = field(default_factory=dict)
    threads: dict[str, Block] = field(default_factory=dict)


@dataclass
class Timer:
    """A timer of a program, with the number of its process, and the block of a callback timer."""
    name: str
    process: int
    callback: Block | None = None


@dataclass
class Program:
    """A program: its declarations and its code; and the place of its text, if that is known.

    other  the program's name, if it isn't in the file of the other programs
    """
    text: str
    processes: list[Process]
    semaphores: dict[str, int]
    autostart: list[int]
    receiver: int | None
    timers: list[Timer] = field(default_factory=list)
    statements: list[Statement] = field(default_factory=list)
    place: ProgramPlace | None = None
    other: str = ''

    def statement(self, number: int) -> Statement:
        """A statement by its number, from 1."""
        return self.statements[number - 1]

    def line(self, line: int) -> str:
        """A line of the program in words, with the line of the file, `line 27 (tree.toml:43)`, or with the name of a
        program that isn't in the file, `line 27 of program sink`."""
        if self.place is None:
            return 'line %d%s' % (line, ' of program %s' % one_line(self.other) if self.other else '')
        return 'line %d (%s:%d)' % (line, self.place.file, self.place.above + line)


class _Maker:
    """Makes the code of one process; `numbers` are those of the processes and semaphores, and of its timers."""

    def __init__(self, program: Program, process: Process, numbers: dict[str, int]):
        self.program, self.process, self.numbers = program, process, dict(numbers)

    def code(self, code: tree.Code) -> None:
        for it in code.timers:
            self.timer(it.text)
        for part in code.parts:
            if part.kind == 'ctimer':
                # (its name is known in its block and after it)
                timer = self.timer(part.name)
                timer.callback = self.block(part.block, part.kind)
            elif part.kind == 'thread':
                self.process.threads[part.name] = self.block(part.block, part.kind)
            else:
                self.process.blocks[part.kind] = self.block(part.block, part.kind)

    def timer(self, name: str) -> Timer:
        self.numbers[name] = len(self.program.timers)
        self.program.timers.append(Timer(name, self.process.number))
        return self.program.timers[-1]

    def block(self, block: tree.Block, part: str, around: tuple[Around, ...] = ()) -> Block:
        return [self.statement(it, part, around) for it in block]

    def statement(self, it: tree.Statement, part: str, around: tuple[Around, ...]) -> Statement:
        number = len(self.program.statements) + 1
        value = self.value(it.value) if it.value else lambda k: 0
        made = Statement(number, it, self.process.number, part, around, value, tree.constant_of(it.value),
                         self.numbers.get(it.name, -1))
        self.program.statements.append(made)
        made.block += self.block(it.block, part, (*around, Around(number, False)))
        made.otherwise += self.block(it.otherwise or (), part, (*around, Around(number, True)))
        return made

    def value(self, it: tree.Expression) -> Value:
        """The value of an expression, as a function of the replay."""
        word = it.token.text
        if isinstance(it, tree.Operation):
            left, right = self.value(it.left), self.value(it.right)
            return lambda k: calculated(word, left(k), right(k))
        if isinstance(it, tree.Not):
            inner = self.value(it.inner)
            return lambda k: int(not inner(k))
        if isinstance(it, tree.Test):
            test, name, number = TESTS[word], it.of, self.numbers.get(it.of, -1)
            return lambda k: int(test(k, name, number))
        if it.is_number:
            same = int(word)
            return lambda k: same
        process = self.process.number
        return VALUES.get(word) or (lambda k: k.variables[process][word])


def made_of(text: str) -> Program:
    """The program with a text that motesim accepts."""
    read = read_program(text)
    processes = [Process(it.process.text, number, it.variables) for number, it in enumerate(read.codes)]
    numbers = {it.name: it.number for it in processes}
    program = Program(text, processes, read.semaphores, [numbers[it] for it in read.starts],
                      numbers[read.receiver.text] if read.receiver else None)
    numbers |= {name: number for number, name in enumerate(read.semaphores)}
    for process, code in zip(processes, read.codes):
        _Maker(program, process, numbers).code(code)
    return program
