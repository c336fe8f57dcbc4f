"""The comments of a program, at the parts that they are about."""
from __future__ import annotations

from typing import NamedTuple

from motesim.notation.tokens import COMMENT
from motesim.notation.tree import Block, Code, Declaration, Part, Program, Statement, last_of


class Comments(NamedTuple):
    """The comments above something, and those at the end of its line."""
    above: list[str]
    beside: list[str]

    @property
    def all(self) -> list[str]:
        return self.above + self.beside


class Braces(NamedTuple):
    """The numbers of a block's two braces, and the comments in front of its first statement and behind its last one."""
    block: Block
    open: int
    close: int
    first: list[str]
    last: list[str]


class CommentsOf:
    """The comments of a program. One on the line on which the token before it ends is `beside` that token; any other is
    `above` the next one."""

    def __init__(self, program: Program):
        self.program = program
        self.above: list[list[str]] = []
        self.beside: list[list[str]] = []
        for it in program.tokens:
            line, _, lines = it.before.partition('\n') if it.number else ('', '', it.before)
            here, below = ([found.strip() for found in COMMENT.findall(text)] for text in (line, lines))
            self.above.append(below)
            self.beside.append([])
            if it.number:
                self.beside[it.number - 1] = here

    def between(self, first: int, last: int) -> Comments:
        """The comments from one token to another; those between them count as `above`."""
        above = list(self.above[first])
        for place in range(first, last):
            above += self.beside[place] + self.above[place + 1]
        return Comments(above, self.beside[last])

    def of_file(self) -> list[str]:
        """The comments at the beginning."""
        declared = self.program.declared
        return self.between(0, declared[0].last.number).above if declared else self._of_lists().above

    def of_processes(self) -> list[str]:
        found = self._of_lists()
        return found.all if self.program.declared else found.beside

    def _of_lists(self) -> Comments:
        """The comments from `process` to the first `code`."""
        return self.between(self.program.processes[0].number - 1, self.program.codes[0].token.number - 1)

    def of_declaration(self, it: Declaration) -> Comments:
        found = self.between(it.token.number, it.last.number)
        return Comments([], found.beside) if it.token.number == 0 else found

    def of_code(self, it: Code) -> list[str]:
        return self.between(it.token.number, it.process.number + 1).all

    def of_part(self, it: Part) -> Comments:
        return self.between(it.token.number, self._open(it))

    @staticmethod
    def _open(it: Part) -> int:
        return it.token.number + (2 if it.name else 1)

    def of_statement(self, it: Statement) -> Comments:
        if not it.has_blocks or it.value is None:
            return self.between(it.token.number, it.last.number)
        return Comments(self.between(it.token.number, last_of(it.value).number).all, [])

    def in_part(self, code: Code, it: Part) -> Braces:
        """The block of a part; the comments at the end of a code are behind its body."""
        end = it.last.number
        behind = self.above[end] + self.beside[end]
        if it.kind == 'body':
            behind = behind + self.above[code.last.number] + self.beside[code.last.number]
        return Braces(it.block, self._open(it), end, [], behind)

    def in_statement(self, it: Statement) -> list[Braces]:
        """The blocks of a statement; the comments around `else` are at the end of the first one."""
        found: list[Braces] = []
        open = last_of(it.value).number + 1 if it.value else 0
        for block in (it.block,) if it.otherwise is None else (it.block, it.otherwise):
            close = block[-1].last.number + 1 if block else open + 1
            first, last = self.beside[open], self.above[close] + self.beside[close]
            if it.otherwise is not None and not found:
                last = last + self.above[close + 1] + self.beside[close + 1] + self.above[close + 2]
            found.append(Braces(block, open, close, first if block else [], last if block else first + last))
            open = close + 2
        return found
