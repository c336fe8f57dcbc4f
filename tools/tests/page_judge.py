"""A second judge of sentences, written only from docs/use/EXPECTATIONS.md. It looks at all lines for each question."""
from __future__ import annotations

import operator
import tomllib
from dataclasses import dataclass, replace

LAST = 1 << 40
COMPARES = {'at least': operator.ge, 'at most': operator.le, 'exactly': operator.eq, 'more than': operator.gt}


@dataclass(frozen=True)
class Line:
    """A line of a trace: its moment, its mote, its place in the trace, and its words after the moment."""
    at: int
    mote: int
    place: int
    words: tuple[str, ...]


@dataclass(frozen=True)
class Value:
    """kind: number, any (of `values`), own, distance, hears, linked or nearer."""
    kind: str
    number: int = 0
    but: frozenset[int] = frozenset()
    values: frozenset[int] = frozenset()


@dataclass(frozen=True)
class Deed:
    """kind: print, send, recv, start, leave, halt or writes; or, for all lines `print`, just, set, only, finally or
    same."""
    kind: str
    process: str = ''
    value: Value | None = None
    sender: int | None = None
    values: tuple[int, ...] = ()
    texts: tuple[str, ...] = ()


@dataclass(frozen=True)
class When:
    """The moments from `first` to `last`, for each hop from `root` so many moments later, or in parts of `every`."""
    first: int = 0
    last: int = LAST
    hop: int = 0
    root: int | None = None
    every: int = 0

    def parts(self) -> list[When]:
        if not self.every:
            return [self]
        return [When(at, min(at + self.every - 1, self.last)) for at in range(self.first, self.last + 1, self.every)]


@dataclass(frozen=True)
class Event:
    """The lines of a deed, or of the sentence's deed; by some motes, or by those of the sentence; at a time, or in the
    sentence's."""
    motes: tuple[int, ...] | None
    deed: Deed | None
    when: When | None = When()


@dataclass(frozen=True)
class Times:
    """How many lines: a number, or a multiple of those of `other`, or a number of those with each value of `other`."""
    compare: str
    number: int
    is_all: bool = False
    other: Event | None = None
    is_each: bool = False

    def admits(self, count: int, whole: int = 1) -> bool:
        return bool(COMPARES[self.compare](count, self.number * whole))


@dataclass(frozen=True)
class Order:
    """kind: after, before, within, or each (within so many moments of each time)."""
    kind: str
    moments: int
    event: Event


@dataclass(frozen=True)
class Does:
    """A sentence about motes. kind: each, together, no, some or count, with the number of motes in `many`."""
    kind: str
    motes: tuple[int, ...]
    deed: Deed
    many: Times | None = None
    never: bool = False
    when: When = When()
    times: Times | None = None
    order: Order | None = None


@dataclass(frozen=True)
class Things:
    """A sentence about packets, or about copies. kind: packets, collide, lost, recv or medium (lost by the medium)."""
    kind: str
    times: Times
    motes: tuple[int, ...] | None = None
    when: When = When()


@dataclass(frozen=True)
class Or:
    """One of these sentences holds."""
    parts: tuple[Does | Things, ...]


Sentence = Does | Things | Or


class NoValue(Exception):
    """A mote isn't reached, so it has no hops."""


def is_before(one: Line, other: Line) -> bool:
    """Two lines of the same moment are ordered only if they belong to the same mote."""
    if one.at == other.at:
        return one.mote == other.mote and one.place < other.place
    return one.at < other.at


def is_soon_after(one: Line, other: Line, moments: int) -> bool:
    """Returns whether a line is at most so many moments after another."""
    return (is_before(other, one) or one.at == other.at and one.mote != other.mote) and one.at - other.at <= moments


class PageJudge:
    """A scenario and its report."""

    def __init__(self, scenario: str, report: str):
        net = tomllib.loads(scenario)
        places, most, self.end = net['mote'], net['medium']['range'] ** 2, net['end']
        self.motes = tuple(range(len(places)))
        dead = {(loss['from'], loss['to']) for loss in net.get('loss', []) if loss['every'] == 1}
        self.hears = {(r, s) for r in self.motes for s in self.motes if r != s and (s, r) not in dead and
                      sum((places[r][axis] - places[s][axis]) ** 2 for axis in 'xy') <= most}
        traces, medium = report.split('medium\n')
        self.lines = [Line(int(words[0]), mote, place, tuple(words[1:]))
                      for mote, trace in enumerate(('\n' + traces).split('\nmote ')[1:])
                      for place, words in enumerate(row.split(' ') for row in trace.splitlines()[1:])]
        self.packets = [row.split(' ') for row in medium.splitlines()[:-1]]

    def hops(self, root: int, mote: int) -> int:
        found, edge = {root: 0}, [root]
        for at in edge:
            near = [r for r in self.motes if (r, at) in self.hears and r not in found]
            found.update(dict.fromkeys(near, found[at] + 1))
            edge += near
        if mote not in found:
            raise NoValue
        return found[mote]

    def is_nearer(self, s: int, mote: int, root: int) -> bool:
        try:
            return self.hops(root, s) + 1 == self.hops(root, mote)
        except NoValue:
            return False

    def values(self, value: Value, mote: int) -> set[int]:
        """The numbers that a value may be, for a mote."""
        if value.kind == 'any':
            return set(value.values)
        heard = {s for r, s in self.hears if r == mote}
        if value.kind in ('distance', 'nearer'):
            hops = self.hops(value.number, mote)
            return {hops} if value.kind == 'distance' else {s for s in heard if self.is_nearer(s, mote, value.number)}
        if value.kind == 'linked':
            heard = {s for s in heard if (s, mote) in self.hears}
        return {{'number': value.number, 'own': mote}.get(value.kind, sum(1 << s for s in heard - value.but))}

    def is_of(self, line: Line, deed: Deed) -> bool:
        words, kind = line.words, deed.kind
        if kind == 'writes':
            return any(words[:len(text.split())] == tuple(text.split()) for text in deed.texts)
        if words[0] != ('print' if kind in ('just', 'set', 'only', 'finally', 'same') else kind):
            return False
        if deed.process and words[1] != deed.process or deed.sender is not None and int(words[1]) != deed.sender:
            return False
        is_whole = kind in ('only', 'finally')
        return is_whole or deed.value is None or int(words[-1]) in self.values(deed.value, line.mote)

    def is_in(self, when: When, line: Line) -> bool:
        later = 0 if when.root is None else when.hop * self.hops(when.root, line.mote)
        return when.first + later <= line.at <= when.last + later

    def done(self, deed: Deed, motes: tuple[int, ...], when: When = When()) -> list[Line]:
        """The lines of a deed, in order of moment, then mote."""
        for mote in motes:
            if deed.value is not None:
                self.values(deed.value, mote)
            if when.root is not None:
                self.hops(when.root, mote)
        found = (line for line in self.lines if line.mote in motes and self.is_of(line, deed))
        inside = [line for line in found if self.is_in(when, line)]
        return sorted(inside, key=lambda line: (line.at, line.mote, line.place))

    def fits(self, order: Order, line: Line, events: list[Line]) -> bool:
        if order.kind == 'after':
            return any(is_before(event, line) for event in events)
        if order.kind == 'before':
            return all(is_before(line, event) for event in events)
        return any(is_soon_after(line, event, order.moments) for event in events)

    def each_time(self, lines: list[Line], events: list[Line], moments: int) -> bool:
        followed = [any(is_soon_after(line, event, moments) for line in lines) for event in events]
        return any(followed) and all(is_followed or event.at + moments > self.end
                                     for is_followed, event in zip(followed, events))

    def do(self, it: Does, motes: tuple[int, ...]) -> bool:
        """Returns whether one mote, or several together, do what a sentence says."""
        lines, deed = self.done(it.deed, motes, it.when), it.deed
        values = [int(line.words[-1]) for line in lines] if deed.kind in ('just', 'set', 'only', 'finally') else []
        if deed.kind == 'just':
            return values == list(deed.values)
        if deed.kind == 'set':
            return sorted(values) == sorted(deed.values)
        if deed.value and deed.kind in ('only', 'finally'):
            allowed = self.values(deed.value, motes[0])
            return bool(values) and values[-1] in allowed and (deed.kind == 'finally' or len(values) == 1)
        other = it.order.event if it.order else it.times.other if it.times else None
        others = [] if other is None else self.done(other.deed or deed, other.motes or motes, other.when or it.when)
        if it.times and it.times.is_each:
            its = [line.words[-1] for line in lines]
            return all(it.times.admits(its.count(line.words[-1]), 1) for line in others)
        if it.order and it.order.kind == 'each':
            return self.each_time(self.done(deed, motes), [line for line in others if self.is_in(it.when, line)],
                                  it.order.moments)
        fit = [line for line in lines if it.order is None or self.fits(it.order, line, others)]
        if it.never:
            return not fit
        if it.times:
            whole = 1 if other is None or it.order else len(others)
            return it.times.admits(len(fit), whole)
        return bool(lines) and fit == lines

    def does(self, it: Does, motes: tuple[int, ...]) -> bool:
        try:
            return self.do(it, motes)
        except NoValue:
            return False

    def motes_do(self, it: Does) -> bool:
        if it.kind == 'together':
            return self.does(it, it.motes)
        if it.deed.kind == 'same':
            return self.is_same(it)
        doing = [self.does(it, (mote,)) for mote in it.motes]
        if it.many:
            return it.many.admits(sum(doing))
        return {'each': all(doing), 'no': not any(doing), 'some': any(doing)}[it.kind]

    def is_same(self, it: Does) -> bool:
        """Each mote has a last line, with one value."""
        try:
            its = [self.done(it.deed, (mote,), it.when) for mote in it.motes]
        except NoValue:
            return False
        return all(its) and len({lines[-1].words[-1] for lines in its}) < 2

    def copies(self, it: Things) -> list[bool]:
        """For each copy or packet of these motes, whether it is counted. `every copy` has none that are left."""
        motes = self.motes if it.motes is None else it.motes
        if it.kind == 'packets':
            return [it.when.first <= int(words[0]) <= it.when.last for words in self.packets]
        due = [(int(words[0]), arrival) for words in self.packets
               for to, arrival in (copy.split('@') for copy in words[4:])
               if int(to) in motes and (arrival == 'lost' or int(arrival) <= self.end)]
        if it.kind == 'medium':
            return [arrival == 'lost' and it.when.first <= at <= it.when.last for at, arrival in due]
        found = [line for line in self.lines if line.words[0] == it.kind and line.mote in motes and
                 self.is_in(it.when, line)]
        return [True] * len(found) + [False] * (len(due) - len(found))

    def holds(self, it: Sentence) -> bool:
        """Returns whether a sentence holds: in each of its periods, if it has several."""
        if isinstance(it, Or):
            return any(map(self.holds, it.parts))
        parts = [replace(it, when=when) for when in it.when.parts()]
        return all(self.motes_do(part) if isinstance(part, Does) else self.counts(part) for part in parts)

    def counts(self, it: Things) -> bool:
        found = self.copies(it)
        return it.times.admits(sum(found), len(found) if it.times.is_all else 1)
