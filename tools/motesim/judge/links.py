"""The links and the hops of a scenario, and the values and moments of sentences that depend on them."""
from __future__ import annotations

from collections.abc import Set
from functools import cached_property

from motesim.judge.meaning import Value, Window
from motesim.scenario import Scenario

# The first and the last moment of a period; None if it has no last one.
Span = tuple[int, int | None]


def within(at: int, span: Span) -> bool:
    return span[0] <= at and (span[1] is None or at <= span[1])


class Apart(Exception):
    """Packets of one mote can't reach another, so there are no hops between them."""


class Links:
    """The links of a scenario that don't lose everything, and the hops over them."""

    def __init__(self, scenario: Scenario):
        self.scenario = scenario
        self.found: dict[int, dict[int, int]] = {}

    def hears(self, r: int, s: int) -> bool:
        """True if mote r hears mote s by a link that doesn't lose everything."""
        return self.scenario.is_open(s, r)

    @cached_property
    def heard(self) -> list[set[int]]:
        """For each mote, the motes that it hears."""
        losses, motes = self.scenario.losses, range(self.scenario.motes)
        return [{s for s in self.scenario.hearers(r) if losses.get((s, r)) != 1} for r in motes]

    def hops(self, root: int, mote: int) -> int:
        """The least number of hops from the root to a mote."""
        if root not in self.found:
            self.found[root] = self.scenario.hops_from(root)
        if mote not in self.found[root]:
            raise Apart('mote %d is not reached from mote %d' % (mote, root))
        return self.found[root][mote]

    def values(self, value: Value, mote: int) -> Set[int]:
        """The numbers that a value may be, for a mote."""
        if value.kind == 'number':
            return {value.number}
        if value.kind == 'any':
            return value.values
        if value.kind == 'self':
            return {mote}
        if value.kind == 'distance':
            return {self.hops(value.number, mote)}
        heard = self.heard[mote]
        if value.kind == 'nearer':
            hops = self.hops(value.number, mote)
            return {s for s in heard if self.found[value.number].get(s) == hops - 1}
        if value.kind == 'linked':
            heard = {s for s in heard if mote in self.heard[s]}
        return {sum(1 << s for s in heard - value.but)}

    def spans(self, window: Window, mote: int) -> list[Span]:
        """The moments of a window, for a mote."""
        begin, end, every = window.begin, window.end, window.every
        if every and end is not None:
            return [(at, min(at + every - 1, end)) for at in range(begin, end + 1, every)]
        later = window.hop * self.hops(window.root, mote) if window.root is not None else 0
        return [(begin + later, None if end is None else end + later)]
