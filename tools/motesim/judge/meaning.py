"""The meaning of sentences about a report: docs/use/EXPECTATIONS.md."""
from __future__ import annotations

from dataclasses import dataclass, field

COMPARES = 'at least', 'at most', 'exactly', 'more than'


@dataclass(frozen=True)
class Count:
    """A condition on a count: a comparison and a number."""
    compare: str
    number: int

    @property
    def least(self) -> int:
        return {'at least': self.number, 'exactly': self.number, 'more than': self.number + 1}.get(self.compare, 0)

    @property
    def most(self) -> int | None:
        """The greatest number that is allowed, or None if there is no limit."""
        return self.number if self.compare in ('at most', 'exactly') else None

    def __str__(self) -> str:
        return '%s %d' % (self.compare, self.number)


@dataclass(frozen=True)
class Window:
    """The moments from `begin` to `end`.

    With `hop`, both moments are later by `hop` for each hop from `root`. With `every`, each interval of this many
    moments is judged separately.
    """
    begin: int = 0
    end: int | None = None
    hop: int = 0
    root: int | None = None
    every: int | None = None


@dataclass(frozen=True)
class Value:
    """A value: a number, or a value that differs by mote or by net.

    kind   number, any (of `values`), self, distance (hops from `number`), heard (the set of the motes that it hears),
           linked (the set of those that also hear it), nearer (a mote that it hears, one hop nearer to `number`)
    but    motes that aren't counted in a set
    words  how the sentence says the value, if it names fields
    """
    kind: str
    number: int = 0
    but: frozenset[int] = frozenset()
    values: frozenset[int] = frozenset()
    words: str = field(default='', compare=False)


# The words of a line after its moment, up to the last one that matters. None means any word.
Pattern = tuple[str | Value | None, ...]


@dataclass(frozen=True)
class Motes:
    """The motes that a sentence is about.

    kind     each (of them), together, no, some, count (a number of them that `count` allows)
    numbers  None for all motes
    """
    kind: str
    numbers: frozenset[int] | None = None
    but: frozenset[int] = frozenset()
    count: Count | None = None

    @property
    def is_one(self) -> bool:
        """True for one mote, and for several together."""
        return self.kind == 'together' or self.numbers is not None and len(self.numbers) == 1

    def chosen(self, motes: int) -> tuple[int, ...]:
        """The numbers of these motes in a net with so many motes."""
        numbers = range(motes) if self.numbers is None else sorted(self.numbers)
        return tuple(mote for mote in numbers if mote not in self.but)


@dataclass(frozen=True)
class Deed:
    """An action of motes: lines of one of these patterns.

    way     any, finally (the last such line has `value`), same (the last such lines of all motes have the same value),
            just (the values of all such lines are `values`, or only `value`), set (in any order)
    """
    patterns: tuple[Pattern, ...]
    way: str = 'any'
    value: Value | None = None
    values: tuple[int, ...] = ()


@dataclass(frozen=True)
class Than:
    """The other lines in a comparison: those of other motes, of another action, or of another time. None: as in the
    sentence. With `is_each`, lines with the same value are counted, for each value of the other lines.
    """
    motes: Motes | None
    deed: Deed | None
    window: Window | None
    is_each: bool = False


@dataclass(frozen=True)
class Relation:
    """The position of lines relative to other lines, the events.

    kind     after or before the first event; within so many moments after an event; each (after each event there is
             a line within so many moments)
    motes    the motes that have the events; None for the mote itself
    words    the event in the words of the sentence
    """
    kind: str
    moments: int
    motes: Motes | None
    deed: Deed
    words: str


@dataclass(frozen=True)
class Does:
    """Motes do something: a number of times, or so many times as often as others or for each of their values, or before
    or after another event."""
    motes: Motes
    deed: Deed
    count: Count
    window: Window
    than: Than | None = None
    relation: Relation | None = None
    # True if the sentence says how often, or says never.
    is_counted: bool = False


@dataclass(frozen=True)
class Copies:
    """A number of copies, or all of them (None), have this outcome, which is one of those in motesim.report."""
    count: Count | None
    outcome: str
    motes: frozenset[int] | None
    window: Window


@dataclass(frozen=True)
class Packets:
    """A number of packets is sent."""
    count: Count
    window: Window


@dataclass(frozen=True)
class Lines:
    """The report has a number of lines."""
    count: Count


@dataclass(frozen=True)
class MediumLine:
    """The log of the medium has a line with these words at its beginning."""
    words: tuple[str, ...]


@dataclass(frozen=True)
class Hears:
    """Each of the motes can hear, or can't hear, another mote: that is in range, and the link doesn't lose every
    packet."""
    motes: frozenset[int]
    can: bool
    other: int


@dataclass(frozen=True)
class Refused:
    """`motesim` writes the line of an error instead of a report."""
    fault: str


Part = Does | Copies | Packets | Lines | Hears


@dataclass(frozen=True)
class Or:
    """At least one of these sentences holds."""
    parts: tuple[Part, ...]


Sentence = Does | Copies | Packets | Lines | MediumLine | Hears | Refused | Or
