"""Reads scenarios: docs/use/SCENARIO.md describes them. Any other text raises a `ScenarioFault`."""
from __future__ import annotations

from collections.abc import Callable, Iterable
from functools import cached_property
from typing import TYPE_CHECKING, Any, NamedTuple

from motesim.scenario.faults import ScenarioError, tables_of
from motesim.scenario.refused import refused

if TYPE_CHECKING:
    from motesim.scenario.fields import Field


class MotePlace(NamedTuple):
    """The place of a mote, and its program."""
    x: int
    y: int
    program: str


def hops_over(near: Callable[[int], Iterable[int]], origin: int) -> dict[int, int]:
    """The least number of hops from a mote to each mote that can be reached from it, itself included; `near` returns
    the motes at one hop."""
    hops, reached = {origin: 0}, [origin]
    for mote in reached:
        for it in near(mote):
            if it not in hops:
                hops[it] = hops[mote] + 1
                reached.append(it)
    return hops


class Scenario:
    """A scenario: `version`, `end`, `range`, `base`, `per`, `collide`, and

    programs  the texts of the programs, by name
    queue     the lengths of event queues that differ from 32, by program
    places    a `MotePlace` for each mote, by its number
    losses    for each pair (sender, receiver) with a loss, its `every`
    fields    the format of packets that the expectations next to the scenario's file declare
    faults    the faults with which it is run, as `fault_text` describes them
    text      the text that was read; empty if the scenario was made otherwise

    It is made from tables that keep the rules of scenarios, but for the texts of programs.
    """

    def __init__(self, tables: dict[str, Any], text: str = ''):
        self.text = text
        self.fields: tuple[Field, ...] = ()
        self.faults: tuple[str, ...] = ()
        medium: dict[str, Any] = tables['medium']
        self.version: int = tables['version']
        self.end: int = tables['end']
        self.range: int = medium['range']
        self.base: int = medium['base']
        self.per: int = medium['per']
        self.collide: bool = medium.get('collide', False)
        self.programs: dict[str, str] = tables['programs']
        self.queue: dict[str, int] = tables.get('queue', {})
        self.places = [MotePlace(it['x'], it['y'], it['program']) for it in tables['mote']]
        self.losses: dict[tuple[int, int], int] = {(it['from'], it['to']): it['every'] for it in tables.get('loss', [])}

    @classmethod
    def parse(cls, text: str | bytes, name: str = 'the scenario') -> Scenario:
        """Reads a scenario, which may begin with a byte order mark; any other text raises a `ScenarioFault`, in which
        it has this name."""
        data = text.encode('utf-8', 'surrogatepass') if isinstance(text, str) else text
        try:
            return cls(tables_of(data), data.decode('utf-8'))
        except ScenarioError as error:
            raise refused(name, data, error) from None

    @property
    def motes(self) -> int:
        """The number of motes."""
        return len(self.places)

    def squared(self, s: int, r: int) -> int:
        """The square of the distance between two motes."""
        one, other = self.places[s], self.places[r]
        return (one.x - other.x) ** 2 + (one.y - other.y) ** 2

    def hears(self, r: int, s: int) -> bool:
        """Returns whether mote r hears mote s. Hearing is mutual."""
        return r != s and self.squared(s, r) <= self.range ** 2

    @cached_property
    def _neighbours(self) -> list[list[int]]:
        """For each mote, the motes that it hears. They are in its square and in those around it; the range is the
        length of a square's side."""
        side = max(1, self.range)
        squares: dict[tuple[int, int], list[int]] = {}
        for number, place in enumerate(self.places):
            squares.setdefault((place.x // side, place.y // side), []).append(number)
        found = []
        for number, place in enumerate(self.places):
            x, y = place.x // side, place.y // side
            near = [it for dx in (-1, 0, 1) for dy in (-1, 0, 1) for it in squares.get((x + dx, y + dy), [])]
            found.append(sorted(it for it in near if self.hears(it, number)))
        return found

    def hearers(self, s: int) -> list[int]:
        """The motes that hear mote s, in rising order, whether or not links have losses."""
        return self._neighbours[s]

    def is_open(self, s: int, r: int) -> bool:
        """Returns whether mote r hears mote s by a link that doesn't lose everything."""
        return self.hears(r, s) and self.losses.get((s, r)) != 1

    def receivers(self, s: int) -> list[int]:
        """The motes that hear mote s by links that don't lose everything, in rising order."""
        return [r for r in self._neighbours[s] if self.losses.get((s, r)) != 1]

    def loses_all_to(self, r: int) -> bool:
        """Returns whether mote r hears others, but each link to it loses everything, so that no packet reaches it."""
        near = self._neighbours[r]
        return bool(near) and not any(self.is_open(s, r) for s in near)

    def hops_from(self, origin: int) -> dict[int, int]:
        """The least number of hops from a mote to each mote that its packets can reach, itself included."""
        return hops_over(self.receivers, origin)

    def delay(self, s: int, r: int) -> int:
        """The number of moments that a packet of s needs to reach r, which hears s."""
        return self.base + self.squared(s, r) // self.per
