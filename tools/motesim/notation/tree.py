"""The tree of a program, and the walks through it.

`motesim.notation.reader` makes the tree of a text: its nodes have tokens, and so places in the text. Nodes never
change; a smaller or another tree may have tokens without a place, made by `word`. `motesim.notation.printer` writes
both kinds of trees.
"""
from __future__ import annotations

from collections.abc import Iterator, Mapping
from typing import NamedTuple, TypeAlias

from motesim.notation.faults import ProgramError
from motesim.notation.grammar import STATEMENTS
from motesim.notation.operators import calculated
from motesim.notation.tokens import Token

NOWHERE = Token('')


def word(text: object) -> Token:
    """A token that is in no text."""
    return Token(str(text))


class Value(NamedTuple):
    """A number, a variable, or one of `data`, `from`, `now` and `self`."""
    token: Token

    @property
    def is_number(self) -> bool:
        return self.token.kind == 'number'


class Test(NamedTuple):
    """A test of something by its name, such as `fired(t)`."""
    token: Token
    of: str
    last: Token = NOWHERE


class Not(NamedTuple):
    """The opposite of an expression."""
    token: Token
    inner: Expression


class Operation(NamedTuple):
    """Two expressions with a sign between them; `first` and `last` are the parentheses."""
    token: Token
    left: Expression
    right: Expression
    first: Token = NOWHERE
    last: Token = NOWHERE


Expression: TypeAlias = 'Value | Test | Not | Operation'


class Statement(NamedTuple):
    """A statement, from `token` to `last`. `kind` is its first word, or `=` for an assignment; `names` are the names
    behind this word, and the variable that is assigned; `into` is the variable for the result of a `post` or a
    `broadcast`."""
    kind: str
    token: Token
    names: tuple[Token, ...] = ()
    value: Expression | None = None
    block: Block = ()
    otherwise: Block | None = None
    into: str = ''
    last: Token = NOWHERE

    @property
    def name(self) -> str:
        """The first name."""
        return self.names[0].text if self.names else ''

    @property
    def event(self) -> str:
        """The event that is posted."""
        return self.names[-1].text if self.kind in ('post', 'synch', 'broadcast') else ''

    @property
    def has_blocks(self) -> bool:
        return self.kind in ('if', 'while')

    @property
    def waits(self) -> bool:
        return self.kind in STATEMENTS and STATEMENTS[self.kind].waits

    @property
    def is_endless(self) -> bool:
        """Returns whether this is a `while` whose test is a number other than 0."""
        return self.kind == 'while' and isinstance(self.value, Value) and self.value.is_number and (
            self.value.token.text != '0')

    def has(self, kind: str, name: str) -> bool:
        """Returns whether the statement is of this kind, with this first name."""
        return self.kind == kind and self.name == name


Block: TypeAlias = 'tuple[Statement, ...]'


class Declaration(NamedTuple):
    """A declaration of one name: its kind (`event`, `semaphore`, `var` or `etimer`), the name, and the first value of a
    variable or a semaphore."""
    token: Token
    name: Token
    number: int = 0
    last: Token = NOWHERE

    @property
    def kind(self) -> str:
        return self.token.text


class Part(NamedTuple):
    """A block of a code: its kind (`ctimer`, `thread`, `onpoll`, `onexit` or `body`), and the name of a timer or
    thread."""
    token: Token
    name: str
    block: Block
    last: Token = NOWHERE

    @property
    def kind(self) -> str:
        return self.token.text


class Code(NamedTuple):
    """The code of a process: its variables and event timers, and its parts. The last part is the body."""
    process: Token
    declared: tuple[Declaration, ...]
    parts: tuple[Part, ...]
    token: Token = NOWHERE
    last: Token = NOWHERE

    @property
    def variables(self) -> dict[str, int]:
        return {it.name.text: it.number for it in self.declared if it.kind == 'var'}

    @property
    def timers(self) -> tuple[Token, ...]:
        """The event timers."""
        return tuple(it.name for it in self.declared if it.kind == 'etimer')

    def named(self, kind: str) -> list[str]:
        """The names of the parts of a kind."""
        return [it.name for it in self.parts if it.kind == kind]

    def statements(self) -> Iterator[Statement]:
        for part in self.parts:
            yield from statements_of(part.block)


class Program(NamedTuple):
    """A program: its declared events and semaphores, its processes, those that start at boot, the receiver, and the
    codes. `tokens` are those of the whole text; if it has an error, `fault` is the first one, and the tree ends
    there."""
    declared: tuple[Declaration, ...]
    processes: tuple[Token, ...]
    autostart: tuple[Token, ...]
    receiver: Token | None
    codes: tuple[Code, ...]
    tokens: tuple[Token, ...] = ()
    fault: ProgramError | None = None

    @property
    def events(self) -> tuple[Token, ...]:
        return tuple(it.name for it in self.declared if it.kind == 'event')

    @property
    def semaphores(self) -> dict[str, int]:
        return {it.name.text: it.number for it in self.declared if it.kind == 'semaphore'}

    @property
    def starts(self) -> list[str]:
        """The names of the processes that start at boot."""
        return [it.text for it in self.autostart]

    def statements(self) -> Iterator[Statement]:
        for code in self.codes:
            yield from code.statements()


def statements_of(block: Block) -> Iterator[Statement]:
    """All statements of a block, an outer one before its inner ones."""
    for it in block:
        yield it
        yield from statements_of(it.block)
        yield from statements_of(it.otherwise or ())


def parts_of(it: Expression | None) -> Iterator[Expression]:
    """An expression and all expressions in it."""
    if it is None:
        return
    yield it
    if isinstance(it, Not):
        yield from parts_of(it.inner)
    elif isinstance(it, Operation):
        yield from parts_of(it.left)
        yield from parts_of(it.right)


def expressions_of(block: Block) -> Iterator[Expression]:
    """All expressions of a block, an outer one before its inner ones."""
    for it in statements_of(block):
        yield from parts_of(it.value)


def tests_in(it: Expression | None, *words: str) -> list[Test]:
    """The tests with one of these words in an expression."""
    return [part for part in parts_of(it) if isinstance(part, Test) and part.token.text in words]


def values_in(it: Expression | None) -> set[str]:
    """The variables and values of an expression, without its numbers."""
    return {part.token.text for part in parts_of(it) if isinstance(part, Value) and not part.is_number}


def is_number(it: Expression) -> bool:
    return isinstance(it, Value) and it.is_number


def last_of(it: Expression) -> Token:
    """The last token of an expression."""
    while isinstance(it, Not):
        it = it.inner
    return it.token if isinstance(it, Value) else it.last


def constant_of(it: Expression | None, known: Mapping[str, int] = {}) -> int | None:
    """The value of an expression that has only numbers and these variables; None for another one."""
    if isinstance(it, Value):
        return int(it.token.text) if it.is_number else known.get(it.token.text)
    if isinstance(it, Not):
        inner = constant_of(it.inner, known)
        return None if inner is None else int(not inner)
    if not isinstance(it, Operation):
        return None
    left, right = constant_of(it.left, known), constant_of(it.right, known)
    return None if left is None or right is None else calculated(it.token.text, left, right)
