"""Random programs, made from the grammar as data: each statement and expression can occur in each place that allows
it.

The weights make programs that do something: most of them wait in a loop, set their timers to near moments, and post to
one another. Everything else is random.
"""
from __future__ import annotations

import random
from collections import Counter
from collections.abc import Sequence
from functools import cache
from typing import NamedTuple

from motesim.notation.grammar import (
    MOST, MOST_LEVELS, MOST_STATEMENTS, RULES, STATEMENTS, TESTS, VALUES, alternatives,
)

# The weights of statements: a statement without one has weight 4.
WEIGHTS = {'exit': 1, 'restart': 1, 'while': 2, 'if': 5, 'kill': 2, 'print': 6, 'VARIABLE': 5, 'set': 6, 'post': 7,
           'send': 5, 'yield': 3, 'yield_until': 6, 'wait_until': 3, 'acquire': 2, 'wait_while': 2, 'broadcast': 3}
EXPRESSION_WEIGHTS = {'(': 9, 'NUMBER': 6, 'VARIABLE': 8, '!': 1}
LEAVES = frozenset(('NUMBER', 'VARIABLE', *VALUES, 'is', *TESTS))
SYMBOLS = ('VARIABLE', 'PROCESS', 'EVENT', 'TIMER', 'SEMAPHORE', 'THREAD')
ODD_NUMBERS = (255, 256, 257, 4095, 9999, 10000, 32767, 32768, 40000, 65534, 65535)
MOST_TIMERS = MOST['timer']
# (names that C or Contiki has occur too, to test the names that replace them)
NAMES = tuple('int char log done list timer_set pt ptr main word ev motesim_self index double abcdefghijklmnop '
              'process_poll a_process t_pt case x1 y0 z9z'.split())


class Form(NamedTuple):
    """An alternative of a rule: its first word or symbol, and its parts, which are quoted words and symbols; the parts
    in brackets may be left out."""
    name: str
    parts: tuple[str, ...]


@cache
def forms(rule: str) -> list[Form]:
    """The alternatives of a rule of the grammar."""
    its = [it.split() for it in alternatives().get(rule, RULES.get(rule, '').split(' | '))]
    return [Form(it['[' in it[0]].strip('"'), tuple(it)) for it in its]


class RandomProgram:
    """Writes one random program. The features that occur are counted in `reached`, by symbol and alternative."""

    def __init__(self, chance: random.Random, reached: Counter[str], limit: str = ''):
        self.chance = chance
        self.reached = reached
        self.limit = limit
        self.names: dict[str, list[str]] = {it: [] for it in SYMBOLS}
        self.taken: set[str] = set()
        self.lines: list[str] = []
        self.statements = 0
        self.is_simple = False
        self.timers_left = MOST_TIMERS

    # Names

    def new_name(self, short: str) -> str:
        """A name that isn't in use yet."""
        if self.chance.random() < 0.03:
            name = self.chance.choice(NAMES)
            if name not in self.taken:
                self.taken.add(name)
                return name
        number = 0
        while '%s%s' % (short, number or '') in self.taken:
            number += 1
        name = '%s%s' % (short, number or '')
        self.taken.add(name)
        return name

    def declare(self, symbol: str, short: str) -> str:
        name = self.new_name(short)
        self.names[symbol].append(name)
        return name

    def few(self, most: int, what: str, limit: int) -> int:
        """Draws a number of items: a small number, or the greatest that is allowed."""
        if self.limit == what:
            self.reached['limit %s' % what] += 1
            return limit
        counts: list[int] = [0, *range(1, most + 1), *range(1, most)]
        return self.chance.choice(counts)

    # The program

    def text(self) -> str:
        """The whole text."""
        chance = self.chance
        for _ in range(self.few(2, 'events', 117)):
            self.lines.append('event %s;' % self.declare('EVENT', 'e'))
        for _ in range(self.few(2, 'semaphores', 64)):
            self.lines.append('semaphore %s = %s;' % (self.declare('SEMAPHORE', 's'), self.number()))
        count = 64 if self.limit == 'processes' else chance.choice([1, 1, 2, 2, 3, 3, 4, 5])
        self.reached['limit processes'] += self.limit == 'processes'
        processes = [self.declare('PROCESS', 'p') for _ in range(count)]
        self.lines.append('process %s;' % ', '.join(processes))
        if chance.random() < 0.97:
            started = chance.sample(processes, chance.randint(max(1, count // 2), count))
            self.lines.append('autostart %s;' % ', '.join(started))
            self.reached['autostart'] += 1
        if chance.random() < 0.8:
            self.lines.append('receiver %s;' % chance.choice(processes))
            self.reached['receiver'] += 1
        for process in processes:
            self.code(process)
        return '\n'.join(self.lines) + '\n'

    def code(self, process: str) -> None:
        """The code of one process."""
        chance = self.chance
        before = set(self.taken)
        for symbol in 'VARIABLE', 'TIMER', 'THREAD':
            self.names[symbol] = []
        self.lines.append('code %s {' % process)
        for _ in range(self.few(3, 'variables', 64)):
            self.lines.append('  var %s = %s;' % (self.declare('VARIABLE', 'v'), self.number()))
            self.reached['var'] += 1
        timers = MOST_TIMERS if self.limit == 'timers' and self.timers_left == MOST_TIMERS else 0
        self.reached['limit timers'] += timers > 0
        for short, most in ('t', 2), ('c', 1):
            for _ in range(min(timers // 2 or chance.randint(0, most), self.timers_left)):
                self.timers_left -= 1
                if short == 't':
                    self.lines.append('  etimer %s;' % self.declare('TIMER', 't'))
                    self.reached['etimer'] += 1
                else:
                    self.lines.append('  ctimer %s {' % self.declare('TIMER', 'c'))
                    self.simple_block('ctimer')
        for _ in range(self.few(2, 'threads', 7) if chance.random() < 0.5 or self.limit == 'threads' else 0):
            name = self.new_name('r')
            self.lines.append('  thread %s {' % name)
            self.reached['thread'] += 1
            if self.limit == 'threads' and self.names['THREAD']:
                self.statement_lines(['spawn %s;' % self.names['THREAD'][-1]], '    ')
            self.block('    ', chance.randint(0, 4), 2)
            self.lines.append('  }')
            self.names['THREAD'].append(name)
        for handler in 'onpoll', 'onexit':
            if chance.random() < 0.3:
                self.lines.append('  %s {' % handler)
                self.simple_block(handler)
        self.lines.append('  body {')
        self.body()
        self.lines += ['  }', '}']
        self.taken = before

    def simple_block(self, what: str) -> None:
        self.reached[what] += 1
        self.is_simple = True
        self.block('    ', self.chance.randint(0, 3), 3)
        self.is_simple = False
        self.lines.append('  }')

    def body(self) -> None:
        """A body: some statements, and usually a loop that waits."""
        chance = self.chance
        if self.limit == 'statements':
            self.reached['limit statements'] += 1
            room = MOST_STATEMENTS - self.statements - 200
            self.limit = ''
            for _ in range(room):
                self.statement_lines([self.statement_of('VARIABLE' if self.names['VARIABLE'] else 'print')], '    ')
        if self.limit == 'levels':
            self.reached['limit levels'] += 1
            self.limit = ''
            for depth in range(MOST_LEVELS - 2):
                self.statement_lines(['if 1 {'], '    ')
            self.statement_lines(['print now;'], '    ')
            self.lines += ['    }'] * (MOST_LEVELS - 2)
            self.statement_lines(['print %s7;' % ('!' * (MOST_LEVELS - 1))], '    ')
        self.block('    ', chance.randint(0, 4), 0)
        if self.names['TIMER'] and chance.random() < 0.35:
            # (the state of a timer whose process has exited)
            self.statement_lines(['print expired(%s);' % chance.choice(self.names['TIMER'])], '    ')
        if chance.random() < 0.75 and self.statements < MOST_STATEMENTS - 40:
            self.statement_lines(['while 1 {'], '    ')
            wait = chance.choice(['yield', 'yield_until', 'yield_until', 'wait_until', 'pause', 'acquire'])
            if self.can_come(self.statement_form(wait).parts):
                self.statement_lines([self.statement_of(wait)], '      ')
            else:
                self.statement_lines(['yield;'], '      ')
            self.block('      ', chance.randint(1, 6), 1)
            self.lines.append('    }')

    def block(self, indent: str, count: int, depth: int) -> None:
        """The statements of a block."""
        for _ in range(count):
            if self.statements > MOST_STATEMENTS - 60:
                return
            if self.chance.random() < 0.07:
                self.revival(indent)
            else:
                self.random_statement(indent, depth)

    def revival(self, indent: str) -> None:
        """A process that is killed and started again at once, while everything else continues."""
        name = self.chance.choice(self.names['PROCESS'])
        lines = ['kill %s;' % name, 'start %s;' % name, 'poll %s;' % name, 'post %s msg 1;' % name]
        kept = [it for it in lines if self.chance.random() < 0.75]
        if self.chance.random() < 0.3:
            self.chance.shuffle(kept)
        self.statement_lines(kept, indent)

    # Statements

    def statement_form(self, name: str) -> Form:
        return next(it for it in forms('statement') if it.name == name)

    def can_come(self, parts: Sequence[str]) -> bool:
        """Returns whether all names that an alternative needs exist."""
        return '[' in parts or all(self.names.get(part, True) for part in parts)

    def random_statement(self, indent: str, depth: int) -> None:
        waits = [name for name, it in STATEMENTS.items() if self.is_simple and it.waits]
        out = [*waits, *('if', 'while') * (depth > 3)]
        kinds = [it.name for it in forms('statement') if self.can_come(it.parts) and it.name not in out]
        kind = self.chance.choices(kinds, [WEIGHTS.get(it, 4) for it in kinds])[0]
        if kind == 'while' and self.names['VARIABLE'] and self.chance.random() < 0.7:
            self.counted_loop(indent, depth)
        elif kind in ('if', 'while'):
            self.reached['statement %s' % kind] += 1
            self.statement_lines(['%s %s {' % (kind, self.expression(2))], indent)
            self.block(indent + '  ', self.chance.randint(0, 3), depth + 1)
            if kind == 'if' and self.chance.random() < 0.4:
                self.reached['else'] += 1
                self.lines.append(indent + '} else {')
                self.block(indent + '  ', self.chance.randint(0, 2), depth + 1)
            self.lines.append(indent + '}')
        else:
            comment = '  // %s' % self.chance.choice(['a', '*/ /* b', 'c ?' + '?/', '"']) \
                if self.chance.random() < 0.02 else ''
            self.statement_lines([self.statement_of(kind) + comment], indent)

    def counted_loop(self, indent: str, depth: int) -> None:
        """A loop that comes to an end, unless its block changes its variable."""
        self.reached['statement while'] += 1
        name = self.chance.choice(self.names['VARIABLE'])
        self.statement_lines(['%s = 0;' % name,
                              'while (%s < %d) {' % (name, self.chance.choice([1, 2, 3, 9, 12, 40]))],
                             indent)
        self.block(indent + '  ', self.chance.randint(0, 2), depth + 1)
        self.statement_lines(['%s = (%s + 1);' % (name, name)], indent + '  ')
        self.lines.append(indent + '}')

    def statement_lines(self, lines: Sequence[str], indent: str) -> None:
        self.statements += len(lines)
        self.lines += [indent + it for it in lines]

    def statement_of(self, kind: str) -> str:
        """A statement without blocks."""
        self.reached['statement %s' % kind] += 1
        if kind == 'set' and self.chance.random() < 0.8:
            timer = self.chance.choice(self.names['TIMER'])
            return 'set %s %d;' % (timer, self.chance.choice([0, 1, 1, 2, 2, 3, 4, 7]))
        if kind == 'yield_until' and self.chance.random() < 0.4:
            return 'yield_until %s;' % self.test()
        return self.joined(self.expand(self.statement_form(kind).parts, 3))

    def test(self) -> str:
        """A test of the event, which is the usual condition for which programs wait."""
        kinds = [it for it in forms('expression') if it.name in ('is', 'fired', 'gone') and self.can_come(it.parts)]
        chosen = self.chance.choice(kinds)
        self.reached['expression %s' % chosen.name] += 1
        return self.joined(self.expand(chosen.parts, 0))

    @staticmethod
    def joined(tokens: list[str]) -> str:
        return ' '.join(tokens)

    # The grammar

    def expand(self, parts: Sequence[str], depth: int) -> list[str]:
        """The tokens of an alternative, with declared names, and with expressions nested at most this deep."""
        if parts[0] == '[':
            inner = parts[1:-1]
            if not self.can_come(inner) or self.chance.random() >= 0.4:
                return []
            self.reached['into'] += 1
            return self.expand(inner, depth)
        return [token for it in parts for token in ([it[1:-1]] if it[0] == '"' else self.symbol(it, depth))]

    def symbol(self, name: str, depth: int) -> list[str]:
        if name == 'NUMBER':
            return [self.number()]
        if name in self.names:
            return [self.chance.choice(self.names[name])]
        if name == 'expression':
            return [self.expression(depth)]
        its = [it for it in forms(name) if self.can_come(it.parts)]
        weights = [8 if it.name in ('cast', 'sent') else 2 if it.name == 'EVENT' else 1 for it in its]
        chosen = self.chance.choices(its, weights)[0]
        if len(forms(name)) > 1:
            self.reached['%s %s' % (name, chosen.name)] += 1
        return self.expand(chosen.parts, depth)

    def number(self) -> str:
        chance = self.chance
        if chance.random() < 0.85:
            return str(chance.choice([0, 0, 1, 1, 1, 2, 3, 4, 5, 7, 9, 12, 20]))
        self.reached['odd number'] += 1
        return str(chance.choice(ODD_NUMBERS) if chance.random() < 0.7 else chance.randrange(65536))

    def expression(self, depth: int) -> str:
        kinds = [it for it in forms('expression') if self.can_come(it.parts) and (depth > 0 or it.name in LEAVES)]
        chosen = self.chance.choices(kinds, [EXPRESSION_WEIGHTS.get(it.name, 2) for it in kinds])[0]
        self.reached['expression %s' % chosen.name] += 1
        return self.joined(self.expand(chosen.parts, depth - 1))
