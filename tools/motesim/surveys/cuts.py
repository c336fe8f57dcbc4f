"""Sets of faults that cut a net apart: from a mote at which a wanted line begins, no path is left to the mote that
should write it.

A path leads over links that neither the scenario nor a fault breaks. The mote at which a line begins is the one where
the chain of its causes starts, in the run without faults.
"""
from __future__ import annotations

from collections.abc import Sequence
from functools import cached_property

from motesim.faults import Fault
from motesim.judge.claim_words import Deed
from motesim.judge.finder import Finder
from motesim.report import Report
from motesim.runner import Limits, Runner
from motesim.scenario import Scenario
from motesim.scenario.fault_text import read_faults
from motesim.surveys.survey import Set
from motesim.causes.chain import places
from motesim.causes.source import Source

# For each mote at which wanted lines begin, the motes to which no path is left.
Cut = dict[int, list[int]]
# The most lines of a deed whose causes are looked for.
MOST_LINES = 8


def broken_by(faults: Set, scenario: Scenario) -> set[tuple[int, int]]:
    """The links that lose everything."""
    found = set[tuple[int, int]]()
    for it in read_faults(faults):
        if it.kind == 'link':
            found.add((it.numbers['FROM'], it.numbers['TO']))
        elif it.kind == 'silent':
            found |= {(it.numbers['FROM'], to) for to in scenario.hearers(it.numbers['FROM'])}
    return found


class Cuts:
    """Finds what sets of faults cut off in a scenario."""

    def __init__(self, scenario: Scenario, limits: Limits):
        self.scenario, self.limits = scenario, limits
        self.begins = dict[int, int]()

    @cached_property
    def plain(self) -> Source:
        """The run without faults."""
        return Source('', Report.parse(Runner(limits=self.limits).report(self.scenario.text.encode())), self.scenario)

    def reached(self, origin: int, broken: set[tuple[int, int]]) -> set[int]:
        """The motes that packets of a mote can reach, itself included."""
        found = [origin]
        for mote in found:
            found += [it for it in self.scenario.receivers(mote) if it not in found and (mote, it) not in broken]
        return set(found)

    def beginning(self, row: int) -> int | None:
        """The mote at which the line in a row of the run without faults begins."""
        where = self.plain.traces.at_row(row)
        if where and row not in self.begins:
            try:
                self.begins[row] = places(self.plain, where)[-1].mote
            except Fault:
                self.begins[row] = where.mote
        return self.begins.get(row)

    def cut_of(self, faults: Set, missing: Sequence[Deed]) -> Cut:
        """What a set of faults cuts off, from the deeds that have too few lines with them."""
        broken, found = broken_by(faults, self.scenario), dict[int, set[int]]()
        if not broken or not missing:
            return {}
        finder = Finder(self.plain.traces.report, self.scenario)
        for row, line in (it for deed in missing for it in finder.lines(deed)[:MOST_LINES]):
            origin = self.beginning(row)
            if origin is not None and line.mote in self.reached(origin, set()) - self.reached(origin, broken):
                found.setdefault(origin, set()).add(line.mote)
        return {origin: sorted(motes) for origin, motes in found.items()}
