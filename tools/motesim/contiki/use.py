"""The declarations that a program uses: C compilers warn about unused ones, so the C file leaves those out."""
from __future__ import annotations

from dataclasses import dataclass, field

from motesim.notation.tree import Block, Code, Operation, Part, Program, Test, Value, parts_of, statements_of

SETS = frozenset({'set', 'reset', 'restart_timer'})


@dataclass
class Use:
    """The names in use: names of the program itself, and pairs of a process and a name in its code."""
    names: set[str] = field(default_factory=set)
    inside: set[tuple[str, str]] = field(default_factory=set)
    # (the callback timers that are set, and those that are reset or restarted)
    set_timers: set[tuple[str, str]] = field(default_factory=set)
    again: set[tuple[str, str]] = field(default_factory=set)
    # (the keywords of statements; the words, tests and operators of expressions)
    words: set[str] = field(default_factory=set)


def use_of(program: Program) -> Use:
    """Returns the names that the program uses."""
    use = Use()
    for code in program.codes:
        _CodeUse(code, use).find()
    return use


class _CodeUse:
    def __init__(self, code: Code, use: Use):
        self.code = code
        self.use = use
        self.parts: dict[str, Part] = {it.name: it for it in code.parts}
        self.ctimers = code.named('ctimer')
        self.seen: set[str] = set()

    def find(self) -> None:
        """Visits the blocks that can be run."""
        for part in self.code.parts:
            if not part.name:
                self.block(part.block)

    def local(self, name: str) -> None:
        self.use.inside.add((self.code.process.text, name))

    def part(self, name: str) -> None:
        """Visits the block of a thread or a callback that can be run."""
        if name not in self.seen:
            self.seen.add(name)
            self.block(self.parts[name].block)

    def block(self, block: Block) -> None:
        for statement in statements_of(block):
            kind, target = statement.kind, '' if statement.kind == 'broadcast' else statement.name
            self.use.words.add(kind)
            if kind in SETS or kind == 'stop':
                self.local(target)
                if kind in SETS and target in self.ctimers:
                    (self.use.set_timers if kind == 'set' else self.use.again).add((self.code.process.text, target))
                    self.part(target)
            elif kind == 'spawn':
                self.local(target)
                self.part(target)
            elif kind == '=':
                self.local(target)
            elif target:
                self.use.names.add(target)
            if statement.event:
                self.use.names.add(statement.event)
            if statement.into:
                self.local(statement.into)
            for part in parts_of(statement.value):
                word = part.token.text
                if isinstance(part, Value) and part.token.kind == 'name' or word in ('fired', 'expired'):
                    self.local(part.of if isinstance(part, Test) else word)
                elif isinstance(part, Test):
                    self.use.names.add(part.of)
                if isinstance(part, (Operation, Test)) or part.token.kind == 'keyword':
                    self.use.words.add(word)
