"""Reads programs by the grammar of docs/use/LANGUAGE.md.

`read_program(text)` returns the tree of any text. At the first token that isn't allowed, it notes the error, and reads
no further: what is missing has an empty token at this place, and the tree has everything before it. `find_fault(text)`
returns the error, or None if the text is a program.
"""
from __future__ import annotations

from collections.abc import Iterable
from functools import lru_cache

from motesim.notation.faults import Allowed, ProgramError, words_of
from motesim.notation.grammar import (
    ANY, CAST, COUNTED, MOST, MOST_LEVELS, MOST_NUMBER, MOST_STATEMENTS, OPERATORS, SENT, STATEMENTS, TESTS, VALUES,
)
from motesim.notation.tokens import Token, tokens_of
from motesim.notation.tree import (
    Block, Code, Declaration, Expression, Not, Operation, Part, Program, Statement, Test, Value,
)

EVENT_WORDS = {'CAST': CAST, 'SENT': SENT}
WAITS = tuple(word for word, it in STATEMENTS.items() if it.waits)
ARTICLES = {'event': 'an', 'semaphore': 'a', 'process': 'a', 'timer': 'a', 'variable': 'a', 'thread': 'a'}
A_NUMBER = Allowed('a number, 0 to 65,535')


class _Reader:
    """Reads a program by its grammar, with the names in scope. After an error `token` is the empty one at its place, so
    that nothing more is accepted."""

    def __init__(self, text: str):
        self.tokens = tuple(tokens_of(text))
        self.token, self.last = self.tokens[0], Token('')
        self.error: ProgramError | None = None
        # (words, and the other things that are allowed here)
        self.wanted: list[str] = []
        self.names: dict[str, str] = {}
        self.counts: dict[str, int] = {}
        self.processes: list[Token] = []
        self.own_thread = ''
        self.is_simple = False
        self.level = self.statements = 0

    def fail(self, kind: int, *may: str) -> Token:
        """Notes the error of the next token, if it is the first one; it is of this kind unless the token is not a token
        at all. Returns the empty token."""
        if self.error is None:
            if self.token.kind == 'bad':
                kind, may = 1, (*self.wanted, *may)
            allowed = [it if isinstance(it, Allowed) else words_of([it])[0] for it in dict.fromkeys(may)]
            self.error = ProgramError(kind, self.token, tuple(allowed))
            self.token = self.last = self.token._replace(text='', before='')
        return self.token

    def unexpected(self, *may: str) -> Token:
        self.wanted += may
        return self.fail(2, *self.wanted)

    def step(self) -> Token:
        """Consumes the next token."""
        if self.error is None:
            self.last, self.wanted = self.token, []
            self.token = self.tokens[self.last.number + 1]
        return self.last

    def accept(self, *words: str) -> Token | None:
        """Consumes and returns the next token if it is one of these words."""
        if self.token.text in words:
            return self.step()
        self.wanted += words
        return None

    def need(self, *words: str) -> Token:
        return self.accept(*words) or self.unexpected()

    def number(self) -> Token:
        return self.checked_number() if self.token.kind == 'number' else self.unexpected(A_NUMBER)

    def checked_number(self) -> Token:
        is_large = len(self.token.text) > 5 or int(self.token.text) > MOST_NUMBER
        return self.fail(5, A_NUMBER) if is_large else self.step()

    def declare(self, kind: str) -> Token:
        """Reads a new name, and declares it."""
        if self.token.kind != 'name':
            return self.unexpected(Allowed('a new name'))
        if self.token.text in self.names:
            return self.fail(4, Allowed('a name that is not declared yet'))
        count = self.counts[kind] = self.counts.get(kind, 0) + 1
        if count > MOST[kind]:
            return self.fail(8, Allowed('at most %d: %s' % (MOST[kind], COUNTED[kind])))
        self.names[self.token.text] = kind
        return self.step()

    def known(self, kind: str) -> Allowed:
        """The names of a kind."""
        found = [name for name, its in self.names.items() if its == kind and name != self.own_thread]
        shown = ', '.join(found) if found else 'none is declared here'
        return Allowed('%s %s (%s)' % (ARTICLES[kind], kind, shown), kind, found)

    def target(self, kind: str) -> Token:
        """Reads a known name of this kind."""
        if self.token.kind != 'name':
            return self.unexpected(self.known(kind))
        return self.checked_target(kind)

    def checked_target(self, kind: str) -> Token:
        its = self.names.get(self.token.text)
        if its != kind or self.token.text == self.own_thread:
            return self.fail(3 if its is None else 10, self.known(kind), *self.wanted)
        return self.step()

    def declarations(self, word: str, kind: str) -> list[Declaration]:
        """Declarations with this word; those of semaphores and variables have a number."""
        found = []
        while first := self.accept(word):
            name = self.declare(kind)
            number = 0
            if kind in ('semaphore', 'variable'):
                self.need('=')
                number = int(self.number().text or 0)
            found.append(Declaration(first, name, number, self.need(';')))
        return found

    def program(self) -> Program:
        declared = self.declarations('event', 'event') + self.declarations('semaphore', 'semaphore')
        if not self.token.text:
            self.fail(9, Allowed('`process` and the names of the processes'), *self.wanted)
        self.need('process')
        self.processes.append(self.declare('process'))
        while self.need(',', ';').text == ',':
            self.processes.append(self.declare('process'))
        autostart = self.autostart() if self.accept('autostart') else ()
        receiver = None
        if self.accept('receiver'):
            receiver = self.target('process')
            self.need(';')
        codes = []
        for process in self.processes:
            first = self.need('code')
            if self.error:
                break
            codes.append(self.code(first, process.text))
        if self.token.text:
            self.unexpected(Allowed('the end of the text: each process has its code'))
        return Program(tuple(declared), tuple(self.processes), autostart, receiver, tuple(codes), self.tokens,
                       self.error)

    def autostart(self) -> tuple[Token, ...]:
        started: list[Token] = []
        while True:
            names = [it.text for it in started]
            if self.token.text and self.token.text in names:
                left = [it.text for it in self.processes if it.text not in names]
                shown = ', '.join(left) or 'there is none'
                self.fail(4, Allowed('a process that is not named here yet (%s)' % shown, '', left))
            started.append(self.target('process'))
            if self.need(',', ';').text != ',':
                return tuple(started)

    def code(self, first: Token, process: str) -> Code:
        name = self.token
        if name.text != process:
            name = self.unexpected(
                Allowed('`%s`: each process has one code, in the order of the `process` line' % process))
        self.step()
        outer = dict(self.names)
        self.counts['variable'] = self.counts['thread'] = 0
        self.need('{')
        declared = (*self.declarations('var', 'variable'), *self.declarations('etimer', 'timer'))
        parts = []
        while word := self.accept('ctimer'):
            parts.append(self.part(word, self.declare('timer').text, True))
        while word := self.accept('thread'):
            self.own_thread = self.declare('thread').text
            parts.append(self.part(word, self.own_thread))
            self.own_thread = ''
        for handler in 'onpoll', 'onexit':
            if word := self.accept(handler):
                parts.append(self.part(word, '', True))
        body = self.need('body')
        if self.error is None:
            parts.append(self.part(body))
        last = self.need('}')
        self.names = outer
        return Code(name, declared, tuple(parts), first, last)

    def part(self, word: Token, name: str = '', is_simple: bool = False) -> Part:
        self.is_simple = is_simple
        return Part(word, name, self.block(), self.last)

    def open(self, *words: str) -> Token:
        """Reads a token that opens a level of nesting."""
        if self.token.text in words and self.level == MOST_LEVELS:
            return self.fail(7, Allowed('less: compute a part before, into a variable, or move it to a thread'))
        self.level += 1
        return self.need(*words)

    def block(self) -> Block:
        self.open('{')
        found = []
        while self.error is None and not self.accept('}'):
            found.append(self.statement())
        self.level -= 1
        return tuple(found)

    def begins(self) -> Token | None:
        """Consumes and returns the next token if it is the first word of a statement."""
        if self.token.text not in STATEMENTS:
            self.wanted += (word for word in STATEMENTS if not (self.is_simple and word in WAITS))
            return None
        if self.is_simple and self.token.text in WAITS:
            others = ', '.join('`%s`' % it for it in STATEMENTS if it not in WAITS)
            return self.fail(6, Allowed('a statement that does not wait: ' + others))
        self.count_statement()
        return self.step()

    def count_statement(self) -> None:
        if self.statements == MOST_STATEMENTS:
            self.fail(8, Allowed('no more: a program has at most 4,096 statements'))
        self.statements += 1

    def statement(self) -> Statement:
        first = self.begins()
        if first is not None:
            return self.operands(first, STATEMENTS[first.text].parts if first.text else ())
        if self.token.kind != 'name':
            self.unexpected(Allowed('a variable and `=`'))
        elif self.token.text in self.names:
            self.count_statement()
        name = self.target('variable')
        self.need('=')
        value = self.expression()
        return Statement('=', name, (name,), value, last=self.need(';'))

    def operands(self, first: Token, parts: Iterable[str]) -> Statement:
        """Reads the parts of a statement behind its first word."""
        names, value, blocks, into = list[Token](), None, list[Block](), ''
        for part in parts:
            if part == 'E':
                value = self.expression()
            elif part == 'B':
                blocks.append(self.block())
            elif part in EVENT_WORDS:
                names.append(self.event(EVENT_WORDS[part]))
            elif part == 'INTO':
                into = self.target('variable').text if self.accept('into') else ''
            elif part == 'else':
                if not self.accept('else'):
                    break
            else:
                names.append(self.target(part.lower()))
        last = self.last if blocks else self.need(';')
        return Statement(first.text, first, tuple(names), value, blocks[0] if blocks else (),
                         blocks[1] if blocks[1:] else None, into, last)

    def event(self, words: tuple[str, ...]) -> Token:
        return self.accept(*words) or self.target('event')

    def expression(self) -> Expression:
        if self.token.kind == 'number':
            return Value(self.checked_number())
        if self.token.text in ('(', '!'):
            first = self.open('(', '!')
            left = self.expression() if first.text else Value(first)
            if first.text == '(':
                sign = self.need(*OPERATORS)
                right = self.expression()
                found: Expression = Operation(sign, left, right, first, self.need(')'))
            else:
                found = Not(first, left)
            self.level -= 1
            return found
        word = self.accept(*VALUES)
        return Value(word) if word else self.test_or_variable()

    def test_or_variable(self) -> Expression:
        word = self.accept('is', *TESTS)
        if word is None:
            self.wanted += (Allowed('a number'), '(', '!')
            return Value(self.target('variable'))
        self.need('(')
        of = self.event(ANY) if word.text == 'is' else self.target(TESTS[word.text])
        return Test(word, of.text, self.need(')'))


@lru_cache(128)
def read_program(text: str) -> Program:
    """The tree of a text."""
    return _Reader(text).program()


def find_fault(text: str) -> ProgramError | None:
    """The first fault of a program text, or None if it is a program."""
    return read_program(text).fault
