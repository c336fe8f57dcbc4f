"""Finds what sentences and claims are about in a report: lines of motes, copies and packets. It decides nothing."""
from __future__ import annotations

from collections.abc import Iterator, Sequence
from itertools import compress, repeat
from itertools import count as counting
from operator import attrgetter
from typing import NamedTuple

from motesim.judge.claim_words import Counted, Deed, OfNet
from motesim.judge.links import Links, Span, within
from motesim.judge.meaning import Copies, Does, Motes, Packets, Pattern, Value, Window
from motesim.report import BECAME, LOST, Line, Report
from motesim.scenario import Scenario


class Event(NamedTuple):
    """A line of a trace with its row in the report."""
    row: int
    line: Line

    @property
    def at(self) -> int:
        return self.line.at


class Row(NamedTuple):
    """A row of the report, with its moment and its mote."""
    row: int
    at: int
    mote: int


IN_TIME = attrgetter('at', 'row')


class Finder:
    """A report with its scenario."""

    def __init__(self, report: Report, scenario: Scenario):
        self.report, self.scenario = report, scenario
        self.links = Links(scenario)

    def row(self, mote: int, number: int) -> int:
        """The row of a line, by its number in the trace of its mote, from 1."""
        return self.report.trace.start(mote) + mote + 1 + number

    def chosen(self, motes: Motes) -> tuple[int, ...]:
        return motes.chosen(self.scenario.motes)

    def spans(self, window: Window, motes: tuple[int, ...]) -> list[Span]:
        """The moments of a window, for these motes."""
        return self.links.spans(window, motes[0] if motes else 0)

    # Lines

    def events(self, mote: int, kind: str) -> Iterator[Event]:
        """The lines of a kind that a mote has, with their rows."""
        trace = self.report.trace
        found = zip(map((mote + 2).__add__, trace.rows(mote, kind)), trace.lines(mote, kinds=(kind,)))
        return map(tuple.__new__, repeat(Event), found)

    def matches(self, pattern: Pattern, mote: int) -> Iterator[Event]:
        """The lines of a mote that have this pattern. (A value may be unknown for this mote, whether or not it has such
        lines.)"""
        wanted = [self.links.values(it, mote) if isinstance(it, Value) else it for it in pattern[1:]]
        for event in self.events(mote, str(pattern[0])):
            fields = event.line[2:-1]
            if len(wanted) <= len(fields) and all(
                    it is None or (str(field) == it if isinstance(it, str) else field in it)
                    for it, field in zip(wanted, fields)):
                yield event

    def done(self, patterns: Sequence[Pattern], motes: Sequence[int]) -> list[Event]:
        """The lines of these motes that have one of these patterns, in the order of moment, then mote."""
        found = [event for mote in motes for pattern in patterns for event in self.matches(pattern, mote)]
        if len(patterns) > 1:
            found = list(set(found))
        elif len(motes) == 1:
            return found
        return sorted(found, key=IN_TIME)

    def lines_of(self, it: Does, motes: tuple[int, ...]) -> list[Event]:
        """The lines of these motes that a sentence is about, in the order of moment, then mote."""
        spans = self.spans(it.window, motes)
        return [event for event in self.done(it.deed.patterns, motes) if any(within(event.at, span) for span in spans)]

    def lines(self, deed: Deed) -> list[Event]:
        """The lines of a deed, in the order of moment, then mote."""
        found = (event for mote, span in deed.watches for event in self.done(deed.wanted, (mote,))
                 if within(event.at, span))
        return sorted(found, key=IN_TIME)

    def next(self, deed: Deed) -> Event | None:
        """The first line that has a pattern of a deed, but comes after the moments in which its mote's lines are looked
        at."""
        found = (event for mote, (_, end) in deed.watches if end is not None
                 for event in self.done(deed.wanted, (mote,)) if event.at > end)
        return min(found, key=IN_TIME, default=None)

    # Copies and packets

    def of_packets(self) -> list[Row]:
        """The rows of the packets."""
        log = self.report.log
        return list(map(Row, counting(self.report.medium_row + 1), log.at, log.sender))

    def lost(self, to: frozenset[int] | None) -> list[Row]:
        """The rows of the packets of which the medium lost copies to these motes, once for each copy."""
        log, rows = self.report.log, self.of_packets()
        lost = compress(zip(log.of_copies(range(len(log))), log.to), map(LOST.__eq__, log.arrival))
        return [rows[packet] for packet, receiver in lost if to is None or receiver in to]

    def of_copies(self, it: Copies) -> list[Row]:
        """The rows that show this outcome, one for each copy, in the order of their moments."""
        if it.outcome == 'lost':
            return self.lost(it.motes)
        motes = range(self.scenario.motes) if it.motes is None else it.motes
        found = (Row(row, line.at, mote) for mote in motes for row, line in self.events(mote, BECAME[it.outcome]))
        return sorted(found, key=IN_TIME)

    def rows_of(self, it: Copies | Packets) -> list[Row]:
        """The rows of the copies or packets that a sentence is about."""
        rows = self.of_packets() if isinstance(it, Packets) else self.of_copies(it)
        return [row for row in rows if any(within(row.at, span) for span in self.spans(it.window, (row.mote,)))]

    def due(self, motes: frozenset[int] | None) -> int:
        """The number of copies to these motes that the medium lost, or that arrived by the end."""
        log, end = self.report.log, self.scenario.end
        return sum(at == LOST or at <= end for to, at in zip(log.to, log.arrival) if motes is None or to in motes)

    # What a test counts

    def counted(self, it: Counted) -> Sequence[Event | Row]:
        """The rows of what is counted, without regard to an order; none if it has no rows."""
        if it.of_net is None:
            return self.lines(it.deeds[0])
        kind, when, to = it.of_net
        rows = self.of_packets() if kind == 'packets' else self.lost(to) if kind == 'lost' else []
        return [row for row in rows if within(row.at, when)]

    def number(self, it: Counted) -> int | None:
        """The number of things that are counted. That of lines with an order isn't known."""
        kind, _, to = it.of_net or OfNet('')
        if kind == 'lines':
            return self.report.length
        if kind == 'left':
            return self.report.left
        if kind == 'due':
            return self.due(to)
        return len(self.counted(it)) if len(it.deeds) < 2 else None
