"""Claims by chance about a net, in their texts: with every form of a test, and with values that runs really have."""
from __future__ import annotations

import random
from collections.abc import Collection, Sequence

KINDS = 'print', 'send', 'recv', 'recv', 'print', 'send', 'halt', 'post'


def spans_of(motes: Sequence[int]) -> str:
    """Motes as a claim lists them: neighbours with consecutive numbers are a span."""
    spans = list[list[int]]()
    for mote in motes:
        if spans and mote == spans[-1][-1] + 1:
            spans[-1].append(mote)
        else:
            spans.append([mote])
    return ', '.join('%d to %d' % (it[0], it[-1]) if len(it) > 1 else str(it[0]) for it in spans)


def named(motes: Sequence[int]) -> str:
    return 'mote%s %s' % ('s' * (len(motes) > 1), spans_of(motes))


class ClaimTexts:
    """Claims about a net with so many motes, whose lines have these values."""

    def __init__(self, chance: random.Random, motes: int, values: Sequence[int]):
        self.chance, self.every, self.values = chance, range(motes), values or [0]

    def is_so(self, share: float) -> bool:
        return self.chance.random() < share

    def value(self) -> int:
        return self.chance.choice(self.values)

    def some(self, least: int = 1, but: Collection[int] = ()) -> list[int]:
        its = [it for it in self.every if it not in but]
        return sorted(self.chance.sample(its, self.chance.randint(min(least, len(its)), len(its))))

    def set(self) -> str:
        low, high = sorted((self.value(), self.value()))
        return '%d to %d' % (low, high) if low < high else str(low)

    def period(self) -> str:
        at, end = sorted((self.chance.randint(0, 40), self.chance.randint(0, 40)))
        return self.chance.choice(('', '', '', ' at %d' % at, ' from %d on' % (at + 1),
                                   ' from %d to %d' % (at, end + 1)))

    def pattern(self) -> str:
        kind = self.chance.choice(KINDS)
        return '"%s%s"' % (kind, ' value ' + self.set() if kind != 'halt' and self.is_so(.3) else '')

    def patterns(self) -> str:
        return ' or '.join(self.pattern() for _ in range(1 + self.is_so(.2)))

    def own(self, case: Sequence[int]) -> str:
        """The first deed of a case of one of these motes, or of the net."""
        return self.patterns() + (self.period() if case else self.together())

    def together(self) -> str:
        return ' of motes %s together' % spans_of(self.some(2)) + self.period()

    def deed(self, case: Sequence[int]) -> str:
        """Any other deed."""
        if case and self.is_so(.4):
            return self.own(case)
        if self.is_so(.5) and len(case) < len(self.every):
            return self.patterns() + ' of mote %d' % self.chance.choice(
                [it for it in self.every if it not in case]) + self.period()
        return self.patterns() + self.together()

    def limits(self, most: int = 3) -> tuple[str, str]:
        """Limits, and the noun behind them."""
        low, high = sorted((self.chance.randint(0, most), self.chance.randint(0, most)))
        at_most = 'at least %d and at most %d' % (low, high) if low else 'at most %d' % high
        both = 'exactly %d' % low if low == high else at_most
        text, last = self.chance.choice((('at least %d' % low, low), ('exactly %d' % low, low), (both, high)))
        return text, 'line' if last == 1 else 'lines'

    def test(self, case: Sequence[int]) -> str:
        one, two, form = self.own(case), self.deed(case), self.chance.randrange(12)
        numbers = [self.value() for _ in range(self.chance.randint(0, 4))]
        its = 'the values ' + ', '.join(map(str, numbers)) if numbers else 'no values'
        if form < 2:
            return 'the last line %s has the value of the last line %s' % (one, two)
        if form < 6:
            order = self.chance.choice(('any order', 'order of time'))
            return 'the lines %s have in %s exactly %s' % (one, order, 'the values of the lines ' + two
                                                           if form > 3 else its)
        if form < 8:
            return 'each value of the lines %s is the value of %s %s %s' % (one, *self.limits(), two)
        if form == 8:
            return 'the last line %s has the value %s' % (one, self.set())
        relation = self.chance.choice((' after some line ', ' before every line ', ' within 3 moments after some line ',
                                       ' within 1 moment before some line '))
        if form == 9:
            return 'every line %s is%s%s' % (one, relation, two)
        return '%s %s %s' % (*self.limits(), one) + (relation + two) * (form == 10)

    def tests(self, case: Sequence[int]) -> str:
        return ' and '.join(self.test(case) for _ in range(1 + self.is_so(.2)))

    def claim(self) -> str:
        if self.is_so(.3):
            return 'the net: ' + self.tests(())
        if self.is_so(.3):
            first, second = self.chance.sample(self.every, 2)
            one, other = self.tests((first,)), self.tests((second,))
            # (cases with the same tests are one group)
            other += ' and at most 1 line "lost"' * (one == other)
            return '%s of these: mote %d: %s; mote %d: %s' % (
                self.chance.choice(('each', 'at least 1', 'exactly 1', 'exactly 0')), first, one, second, other)
        motes = self.some()
        quantity = self.chance.choice(('each', 'at least 1', 'exactly 0', 'at most 1')) if len(motes) > 1 else ''
        return '%s%s: %s' % (quantity and quantity + ' of ', named(motes), self.tests(motes))
