"""Claims about a report, and the one text that each of them has: crates/claim_text has the grammar, and its proved
reader takes no other text."""
from __future__ import annotations

from collections.abc import Iterable, Sequence, Set
from dataclasses import dataclass
from functools import cached_property
from itertools import groupby
from typing import NamedTuple

from motesim.judge.links import Span
from motesim.judge.meaning import Pattern

ALL: Span = (0, None)
Limits = tuple[int, int | None]
# A mote, and the moments in which its lines are looked at.
Watch = tuple[int, Span]


def limits_text(limits: Limits) -> str:
    least, most = limits
    if most is None or least == most:
        return '%s %d' % ('at least' if most is None else 'exactly', least)
    return '%sat most %d' % ('at least %d and ' % least if least else '', most)


def of_number(number: int | None, one: str, many: str) -> str:
    """The noun behind a number: in the singular behind 1."""
    return one if number == 1 else many


def period_text(span: Span) -> str:
    """A span with a space in front of it, such as ` from 3 to 9`; an empty text for the whole run."""
    begin, end = span
    if end is None:
        return ' from %d on' % begin if begin else ''
    return ' at %d' % begin if begin == end else ' from %d to %d' % (begin, end)


def runs_of(numbers: Sequence[int]) -> list[str]:
    """Numbers in their order, in which each number that is followed by the next greater one begins a span."""
    found: list[list[int]] = []
    for number in numbers:
        if found and number == found[-1][-1] + 1:
            found[-1].append(number)
        else:
            found.append([number])
    return ['%d to %d' % (run[0], run[-1]) if len(run) > 1 else str(run[0]) for run in found]


def set_text(numbers: Iterable[int]) -> str:
    return ' or '.join(runs_of(sorted(numbers))) or 'none'


def item_text(numbers: Set[int]) -> str:
    """An item of a list: a set, with `any of` in front of more than one number."""
    return 'any of ' * (len(numbers) > 1) + set_text(numbers)


def motes_text(motes: Sequence[int]) -> str:
    return of_number(len(motes), 'mote ', 'motes ') + ', '.join(runs_of(motes))


class Deed(NamedTuple):
    """The lines of some motes, each in its moments, that have one of some patterns. `wanted` has the patterns of the
    sentence, and `named` those of the claim with the names of processes."""
    patterns: tuple[str, ...]
    watches: tuple[Watch, ...]
    wanted: tuple[Pattern, ...] = ()
    named: tuple[str, ...] = ()

    @property
    def mote(self) -> int | None:
        """The only mote whose lines these are."""
        return self.watches[0][0] if len(self.watches) == 1 else None

    def text(self, own: int | None, is_named: bool = False) -> str:
        """`own` is the mote of the case, which isn't named again."""
        what = ' or '.join('"%s"' % it for it in (self.named if is_named else self.patterns)) or 'of no kind'
        if self.mote is not None and self.mote == own:
            return what + period_text(self.watches[0][1])
        groups = [([mote for mote, _ in its], span) for span, its in groupby(self.watches, lambda it: it[1])]
        return what + (' and'.join(' of %s%s%s' % (motes_text(motes), ' together' * (len(motes) > 1), period_text(span))
                                   for motes, span in groups) or ' of no mote')


class OfNet(NamedTuple):
    """Things of the net. kind: lines (of the report), left (copies on the way at the end), packets, lost (copies), or
    due (copies that were lost or due by the end); of copies, those to some motes."""
    kind: str
    when: Span = ALL
    to: frozenset[int] | None = None


class Counted(NamedTuple):
    """What is counted: its name behind the number 1 and behind other numbers; and either its deeds, the second of which
    gives the first one an order, or things of the net."""
    one: str
    many: str
    deeds: tuple[Deed, ...] = ()
    of_net: OfNet | None = None

    @property
    def mote(self) -> int | None:
        return self.deeds[0].mote if self.deeds else None


class Test(NamedTuple):
    """A test of one mote, or of the net: a text with a place `%s` for each of its deeds.

    kind     number (of lines or other things), every (line has an order), ratio, values (in their order), set (values
             in any order), last (value), same (last values), each (value is that of so many lines)
    mote     the mote of the test, if its lines are those of one mote
    counted  what it counts, or the lines whose values it wants
    limits   of a number
    values   the wanted values of the lines, one after another
    shown    the text in which fields of values have their names, if it differs
    is_high  whether the second of the things that are compared is that of the sentence
    """
    kind: str
    form: str
    deeds: tuple[Deed, ...]
    mote: int | None
    counted: tuple[Counted, ...]
    limits: Limits = (0, None)
    values: tuple[Set[int], ...] = ()
    is_high: bool = False
    shown: str = ''

    def text(self, own: int | None, is_named: bool = False) -> str:
        """`own` is the mote of the case, which isn't named again."""
        return (is_named and self.shown or self.form) % tuple(deed.text(own, is_named) for deed in self.deeds)

    @property
    def own(self) -> Counted:
        """What the sentence is about, and not what this is compared with."""
        return self.counted[self.is_high]

    @property
    def deed(self) -> Deed | None:
        """The lines of the sentence."""
        return next(iter(self.own.deeds), None)

    @property
    def least(self) -> int:
        """The least number of lines with which it holds."""
        return max(self.limits[0], len(self.values)) if self.deed else 0


class Case(NamedTuple):
    """The tests of one mote, or of the net, which must all hold."""
    tests: tuple[Test, ...] = ()

    @property
    def mote(self) -> int | None:
        return self.tests[0].mote if self.tests else None

    @property
    def subject(self) -> str:
        return 'the net' if self.mote is None else 'mote %d' % self.mote

    def body(self, is_named: bool = False) -> str:
        return ' and '.join(it.text(self.mote, is_named) for it in self.tests) or 'always'


@dataclass(frozen=True)
class Claim:
    """So many of the cases hold. `fewer` says why there are fewer cases than it wants."""
    limits: Limits
    cases: tuple[Case, ...]
    fewer: str = ''

    @cached_property
    def text(self) -> str:
        """The claim's line. Cases that differ only in their mote are one group."""
        groups: dict[tuple[str, int], list[int]] = {}
        for number, case in enumerate(self.cases):
            own = case.mote
            groups.setdefault((case.body(), number if own is None else -1), []).extend([] if own is None else [own])
        shown = ['%s: %s' % (motes_text(motes) if motes else 'the net', body) for (body, _), motes in groups.items()]
        is_all = self.limits == (len(self.cases), len(self.cases))
        quantity = ('' if len(self.cases) == 1 else 'each of ') if is_all else limits_text(self.limits) + ' of '
        return quantity + ('' if len(groups) == 1 else 'these: ') + ('; '.join(shown) or 'no cases')


def lines_of(deed: Deed, order: str = '', event: Deed | None = None) -> Counted:
    """The lines of a deed, or those that have an order with an event's lines."""
    deeds = (deed,) if event is None else (deed, event)
    words = ' %s' + (order + ' %s' if event else '')
    return Counted('line' + words, 'lines' + words, deeds)


def limited(limits: Limits, what: Counted) -> Test:
    """The number of these things is within the limits."""
    shown = limits[0] if limits[1] is None else limits[1]
    form = '%s %s' % (limits_text(limits), of_number(shown, what.one, what.many))
    return Test('number', form, what.deeds, what.mote, (what,), limits)


def ratio(low: Counted, low_times: int, high: Counted, high_times: int, is_strict: bool, is_high: bool) -> Test:
    """A multiple of a number is at most a multiple of another one, or below it."""
    form = '%d times the number of %s is %s %d times the number of %s' % (
        low_times, low.many, 'less than' if is_strict else 'at most', high_times, high.many)
    mote = low.mote if high.mote is None else high.mote
    return Test('ratio', form, low.deeds + high.deeds, mote, (low, high), is_high=is_high)


def every_line(deed: Deed, order: str, event: Deed) -> Test:
    return Test('every', 'every line %s is' + order + ' %s', (deed, event), deed.mote, (lines_of(deed, order, event),))


def same_last(deed: Deed, other: Deed) -> Test:
    """The last lines have the same value."""
    return Test('same', 'the last line %s has the value of the last line %s', (deed, other), deed.mote, (
        lines_of(deed), lines_of(other)))


def each_value(deed: Deed, limits: Limits, lines: Deed) -> Test:
    """For each value of a deed's lines, the number of lines that have it is within the limits."""
    shown = limits[0] if limits[1] is None else limits[1]
    form = 'each value of the lines %%s is the value of %s %s %%s' % (
        limits_text(limits), of_number(shown, 'line', 'lines'))
    return Test('each', form, (deed, lines), deed.mote, (lines_of(deed), lines_of(lines)), is_high=True)


def with_values(kind: str, deed: Deed, values: Sequence[Set[int]], words: str = '') -> Test:
    """The lines have these values in their order, or in any order; or the last line has the value. `words` are the
    value by its fields."""
    text_of = set_text if kind == 'last' else item_text
    form = {'values': 'the lines %%s have in order of time exactly the values %s',
            'set': 'the lines %%s have in any order exactly the values %s',
            'last': 'the last line %%s has the value %s'}[kind]
    text, shown = form % ', '.join(map(text_of, values)), form % words if words else ''
    return Test(kind, text, (deed,), deed.mote, (lines_of(deed),), values=tuple(values), shown=shown)
