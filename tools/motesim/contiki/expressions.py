"""Expressions of the notation in C, with exactly 16 bits on machines whose `int` has 16 or 32.

An expression in C is `Made` with the least and the greatest value that it can have before it is cut to 16 bits. It is
cut, by a cast to uint16_t, only if the expression around it would have another value otherwise: a sum that is assigned
to a uint16_t needs no cast, but a sum that is compared needs one.
"""
from __future__ import annotations

from dataclasses import dataclass
from typing import NamedTuple

from motesim.contiki.names import Names
from motesim.notation.operators import calculated
from motesim.notation.printer import written
from motesim.notation.tree import Expression, Not, Operation, Test, word

MOST, MOST_INT16, MOST_INT32 = 0xffff, 0x7fff, 0x7fff_ffff
# The precedence of operators: a greater one binds more tightly.
ATOM, UNARY, PRODUCT, SUM, ORDER, EQUAL, AND, OR = 16, 14, 12, 11, 9, 8, 4, 3
LEVELS = {'*': PRODUCT, '/': PRODUCT, '%': PRODUCT, '+': SUM, '-': SUM, '==': EQUAL, '!=': EQUAL, '<': ORDER,
          '<=': ORDER, '>': ORDER, '>=': ORDER, '&&': AND, '||': OR}
OPPOSITE = {'==': '!=', '!=': '=='}
EVENTS = {'continue': 'PROCESS_EVENT_CONTINUE', 'msg': 'PROCESS_EVENT_MSG', 'com': 'PROCESS_EVENT_COM',
          'packet': 'MOTESIM_PACKET', 'exit': 'PROCESS_EVENT_EXIT', 'init': 'PROCESS_EVENT_INIT',
          'poll': 'PROCESS_EVENT_POLL', 'exited': 'PROCESS_EVENT_EXITED', 'timer': 'PROCESS_EVENT_TIMER'}


class Known(NamedTuple):
    """The event with which the process is known to have been called, and the timer or process that the event names."""
    event: str
    name: str = ''


@dataclass(frozen=True)
class Made:
    """An expression in C: its text, how tightly it binds, its range, and its type.

    The type is `signed` (an int that is made only of truth values and small numbers), `short` (an int, or an unsigned
    int if that has 16 bits: a uint16_t is among its operands), or `unsigned`.
    """
    text: str
    level: int
    low: int
    high: int
    type: str = 'short'

    def inside(self, level: int) -> str:
        """The text, in parentheses if it binds less tightly than `level`."""
        return self.text if self.level >= level else '(%s)' % self.text


def truth(text: str, level: int) -> Made:
    return Made(text, level, 0, 1, 'signed')


def number(value: int) -> Made:
    if value > MOST_INT16:
        return Made('%dU' % value, ATOM, value, value, 'unsigned')
    return Made(str(value), ATOM, value, value, 'signed')


def cut(made: Made) -> Made:
    """An expression whose value has 16 bits."""
    if made.low >= 0 and made.high <= MOST:
        return made
    if is_constant(made):
        return number(made.low & MOST)
    return Made('(uint16_t)%s' % made.inside(UNARY), UNARY, 0, MOST)


def is_constant(made: Made) -> bool:
    return made.low == made.high


def condition(made: Made) -> Made:
    """An expression that is 0 exactly if its value of 16 bits is 0."""
    if made.level in (PRODUCT, SUM) and not is_constant(made):
        # (compilers warn about a product as a condition, and about some sums that they mistake for a product)
        is_exact = made.type != 'unsigned' and max(-made.low, made.high) <= MOST
        return truth('%s != 0' % (made if is_exact else cut(made)).inside(ORDER), EQUAL)
    return cut(made)


def truth_of(made: Made) -> Made:
    """The truth value of an expression: 0 or 1."""
    if made.low >= 0 and made.high <= 1:
        return made
    return truth('%s != 0' % cut(made).inside(ORDER), EQUAL)


def with_sign(made: Made) -> Made:
    """An operand with which arithmetic is unsigned on machines whose `int` has 16 bits."""
    if made.level == ATOM and is_constant(made):
        return Made('%dU' % made.low, ATOM, made.low, made.high, 'unsigned')
    return Made('(uint16_t)%s' % made.inside(UNARY), UNARY, made.low, made.high)


def range_of(operator: str, left: Made, right: Made) -> tuple[int, int]:
    if operator == '+':
        return left.low + right.low, left.high + right.high
    if operator == '-':
        return left.low - right.high, left.high - right.low
    corners = [one * other for one in (left.low, left.high) for other in (right.low, right.high)]
    return min(corners), max(corners)


def decided(operator: str, left: Made, right: Made) -> bool | None:
    """The result of a comparison if the ranges of its sides decide it, otherwise None."""
    if operator in OPPOSITE:
        if left.high < right.low or right.high < left.low:
            return operator == '!='
        if is_constant(left) and is_constant(right):
            return operator == '=='
        return None
    if operator in ('>', '>='):
        left, right, operator = right, left, {'>': '<', '>=': '<='}[operator]
    below = left.high < right.low if operator == '<' else left.high <= right.low
    above = left.low >= right.high if operator == '<' else left.low > right.high
    return True if below else False if above else None


def is_equal(one: Expression, other: Expression) -> bool:
    """Returns whether two expressions are the same, in different places."""
    return written(one) == written(other)


def known_by(test: Test) -> Known | None:
    """The event of a process that is called while a test is true, if the test is about events."""
    known = {'is': Known(test.of), 'fired': Known('timer', test.of), 'gone': Known('exited', test.of)}
    return known.get(test.token.text)


def implied(expression: Expression | None) -> Known | None:
    """The event with which a process must have been called if an expression is true."""
    if isinstance(expression, Test):
        return known_by(expression)
    if isinstance(expression, Operation) and expression.token.text == '&&':
        one, other = implied(expression.left), implied(expression.right)
        return one if one and (one.name or not other) else other
    return None


class Expressions:
    """Writes the expressions of one block in C.

    `known` is the event, or None if it isn't known. A simple block has one event for its whole length, and C has no
    `ev` there: `has_event` is false. `word` is the function that returns the word of any event.
    """

    def __init__(self, names: Names, process: str, timers: dict[tuple[str, str], int], ctimers: set[str],
                 processes: list[str]):
        self.names = names
        self.process = process
        self.timers = timers
        self.ctimers = ctimers
        self.processes = processes
        self.known: Known | None = None
        self.has_event = True
        self.word = 'word'

    def value(self, expression: Expression | None) -> Made:
        """An expression whose value has 16 bits."""
        return cut(self.loose(expression))

    def condition(self, expression: Expression | None) -> Made:
        return condition(self.loose(expression))

    def loose(self, expression: Expression | None) -> Made:
        """An expression that is right modulo 65,536."""
        assert expression is not None
        constant = self.constant(expression)
        if isinstance(expression, Operation):
            made = self.operation(expression)
            # (a constant is calculated here if C would compute another value, or if its compiler would warn)
            if constant is None:
                return number(made.low & MOST) if is_constant(made) else made
            is_plain = made.type == 'signed' and made.low == made.high == constant
            return made if is_plain else number(constant)
        if constant is not None:
            return number(constant)
        return self.negation(expression) if isinstance(expression, Not) else self.leaf(expression)

    def constant(self, expression: Expression) -> int | None:
        """The value of an expression, if it is the same at each call."""
        if isinstance(expression, Not):
            value = self.constant(expression.inner)
            return None if value is None else int(not value)
        if isinstance(expression, Operation):
            left, right = self.constant(expression.left), self.constant(expression.right)
            return None if left is None or right is None else calculated(expression.token.text, left, right)
        if isinstance(expression, Test):
            event = None if self.has_event else known_by(expression)
            if event is None:
                return None
            return int(self.known is not None and event == (self.known if event.name else Known(self.known.event)))
        text = expression.token.text
        if text == 'from':
            return 0 if not self.has_event or self.known and self.known.event != 'packet' else None
        if text == 'data' and self.known:
            return self.known_word(self.known)
        return int(text) if expression.is_number else None

    def known_word(self, known: Known) -> int | None:
        """The word of an event that is known, if it is the same at each call."""
        if known.event in ('init', 'poll'):
            return 0
        if known.name and known.event == 'timer':
            return self.timers[self.process, known.name]
        return self.processes.index(known.name) if known.name else None

    def leaf(self, expression: Expression) -> Made:
        if isinstance(expression, Test):
            return self.test(expression.token.text, expression.of)
        text = expression.token.text
        if expression.token.kind == 'name':
            return Made(self.names.inside(self.process, text), ATOM, 0, MOST)
        return self.named_word(text)

    def event(self, name: str) -> str:
        """The number of an event."""
        return EVENTS.get(name) or self.names.of(name)

    def named_word(self, name: str) -> Made:
        if name == 'now':
            return Made('(uint16_t)clock_time()', UNARY, 0, MOST)
        if name == 'self':
            return Made('motesim_self()', ATOM, 0, MOST)
        if name == 'from':
            return Made('motesim_from(ev, data)', ATOM, 0, MOST)
        if not self.known or self.known.event in ('timer', 'exited'):
            return Made('%s(ev, data)' % self.word, ATOM, 0, MOST)
        if self.known.event == 'packet':
            return Made('motesim_word(ev, data)', ATOM, 0, MOST)
        return Made('(uint16_t)(uintptr_t)data', UNARY, 0, MOST)

    def test(self, kind: str, name: str) -> Made:
        if kind == 'is':
            return truth('ev == %s' % self.event(name), EQUAL)
        if kind == 'fired':
            return truth('ev == PROCESS_EVENT_TIMER && data == &%s' % self.etimer(name), AND)
        if kind == 'gone':
            return truth('ev == PROCESS_EVENT_EXITED && data == &%s' % self.names.of(name), AND)
        if kind == 'expired':
            return truth('%s_expired(&%s)' % self.timer(name), ATOM)
        if kind == 'running':
            return truth('process_is_running(&%s)' % self.names.of(name), ATOM)
        return Made('(uint16_t)PT_SEM_COUNT(&%s)' % self.names.of(name), UNARY, 0, MOST)

    def timer(self, name: str) -> tuple[str, str]:
        """The prefix of a timer's calls, and its C name."""
        return 'ctimer' if name in self.ctimers else 'etimer', self.names.inside(self.process, name)

    def etimer(self, name: str) -> str:
        """The event timer of a timer; the data of the timer's event points to it."""
        prefix, cname = self.timer(name)
        return cname + '.etimer' if prefix == 'ctimer' else cname

    def negation(self, expression: Not) -> Made:
        inner = expression.inner
        if isinstance(inner, Operation) and inner.token.text in OPPOSITE:
            return self.loose(inner._replace(token=word(OPPOSITE[inner.token.text])))
        made = self.condition(inner)
        if made.low == made.high:
            return number(int(not made.low))
        if isinstance(inner, Test) and inner.token.text == 'is':
            return truth(made.text.replace('==', '!='), EQUAL)
        return truth('!' + made.inside(UNARY), UNARY)

    def operation(self, expression: Operation) -> Made:
        operator, is_same = expression.token.text, is_equal(expression.left, expression.right)
        if operator in ('&&', '||'):
            return self.logic(expression)
        left, right = self.loose(expression.left), self.loose(expression.right)
        if operator == '-' and is_same:
            return number(0)
        if operator in ('+', '-', '*'):
            return self.arithmetic(operator, left, right)
        if operator in ('/', '%'):
            return self.division(operator, left, right)
        if is_same:
            return number(int(operator in ('==', '<=', '>=')))
        return self.comparison(operator, cut(left), cut(right))

    def logic(self, expression: Operation) -> Made:
        """If `&&` is true, both sides are, so each side may assume the event for which the other one tests."""
        is_and = expression.token.text == '&&'
        before = self.known
        if is_and and self.has_event:
            self.known = implied(expression.right) or before
        left = self.condition(expression.left)
        if is_and and self.has_event:
            self.known = implied(expression.left) or before
        right = self.condition(expression.right)
        self.known = before
        for one, other in (left, right), (right, left):
            if is_constant(one):
                return number(int(not is_and)) if bool(one.low) != is_and else truth_of(other)
        if is_equal(expression.left, expression.right):
            return truth_of(left)
        level = LEVELS[expression.token.text]
        sides = [it.inside(level if it.level == level else AND + 1) for it in (left, right)]
        return truth((' %s ' % expression.token.text).join(sides), level)

    def arithmetic(self, operator: str, left: Made, right: Made) -> Made:
        low, high = range_of(operator, left, right)
        if 'unsigned' not in (left.type, right.type) and max(-low, high) > MOST_INT32:
            left, right = cut(left), cut(right)
            low, high = range_of(operator, left, right)
            if high > MOST_INT32:
                left = Made('(unsigned)%s' % left.inside(UNARY), UNARY, left.low, left.high, 'unsigned')
        if left.type == right.type == 'signed' and max(-low, high) > MOST_INT16:
            if right.level == ATOM:
                right = with_sign(right)
            else:
                left = with_sign(left)
        level = LEVELS[operator]
        text = '%s %s %s' % (left.inside(level if level == SUM else level + 1), operator, right.inside(level + 1))
        if 'unsigned' in (left.type, right.type):
            is_exact = low >= 0 and high <= 0xffff_ffff and left.low >= 0 and right.low >= 0
            return Made(text, level, low if is_exact else -1, high if is_exact else 1 << 32, 'unsigned')
        return Made(text, level, low, high, 'short' if 'short' in (left.type, right.type) else 'signed')

    def division(self, operator: str, left: Made, right: Made) -> Made:
        right = cut(right)
        if not is_constant(right) or right.low == 0:
            name = 'motesim_divide' if operator == '/' else 'motesim_modulo'
            return Made('%s(%s, %s)' % (name, left.text, right.text), ATOM, 0, MOST)
        left = cut(left)
        text = '%s %s %s' % (left.inside(PRODUCT + 1), operator, right.inside(PRODUCT + 1))
        types = {left.type, right.type}
        kind = 'unsigned' if 'unsigned' in types else 'short' if 'short' in types else 'signed'
        high = left.high // right.low if operator == '/' else min(left.high, right.low - 1)
        return Made(text, PRODUCT, left.low // right.low if operator == '/' else 0, high, kind)

    def comparison(self, operator: str, left: Made, right: Made) -> Made:
        answer = decided(operator, left, right)
        if answer is not None:
            return number(int(answer))
        # (compilers warn if an operand of an unsigned comparison seems to be negative)
        if 'unsigned' in (left.type, right.type):
            left, right = (it if it.type == 'unsigned' or it.type == 'short' and it.level >= UNARY else
                           Made('(uint16_t)%s' % it.inside(UNARY), UNARY, it.low, it.high) for it in (left, right))
        # (they warn about a negation there, too)
        one, other = ('(%s)' % it.text if it.text.startswith('!') else it.inside(SUM) for it in (left, right))
        return truth('%s %s %s' % (one, operator, other), LEVELS[operator])
