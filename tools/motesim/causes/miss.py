"""The near misses of a line that a sentence wants but that doesn't exist: a line that is too early or too late, a copy
that was lost or dropped, a mote that halted, a statement that wasn't reached, a condition that wasn't true, a process
that waits. They are found in the trace, in the log of the medium, or in the replay of the mote.
"""
from __future__ import annotations

from collections.abc import Iterator, Set
from functools import cached_property
from typing import NamedTuple

from motesim.judge.hearing import unheard
from motesim.judge.links import Span
from motesim.judge.meaning import Pattern, Value
from motesim.replay.mote import DetailedReplay, Reached
from motesim.replay.program import Around, Program, Statement
from motesim.report import Line, Packet
from motesim.causes.fate import Fate, fate_of
from motesim.causes.question import Asker, Missing
from motesim.causes.source import At, Source
from motesim.causes.spread import Spread, spread_of

MOST_COPIES, MOST_OTHERS = 8, 3
WHOLE: Span = 0, None


class Moved(NamedTuple):
    """The wanted line, too late or too early for a limit."""
    line: Line
    limit: int


class Unheard(NamedTuple):
    """The mote can't hear the sender."""
    sender: int


class Untaken(NamedTuple):
    """The copy of a packet, which no process took."""
    packet: Packet
    fate: Fate


class Absent(NamedTuple):
    """No such statement of the process, or of the whole program, could write the line; `has_others`: with other values,
    they could."""
    process: str | None
    statement: str
    has_others: bool


class Away(NamedTuple):
    """A process isn't on the process list: the line with which it left, or started after the moment `until`."""
    process: str
    line: Line | None
    until: int


class Times(NamedTuple):
    """How often something happened in a time, which is the whole run if it never happened outside, and when last."""
    number: int
    span: Span
    last: int


class Passed(NamedTuple):
    """A statement that could write the line; and the outermost condition around it that wasn't true, or not the last
    time."""
    statement: int
    reached: Times
    around: Around | None = None
    tested: Times = Times(0, WHOLE, 0)
    is_never: bool = False


class Waiting(NamedTuple):
    """A process waits at a statement, up to a moment or the end; its condition was tested so often in this time."""
    process: str
    statement: int
    since: int
    until: int | None
    tests: int


class Miss(NamedTuple):
    """A near miss at a mote: its kind, its facts (of a halt, it has none), and the line of the report that shows it, or
    0. `is_wanted` says whether it is about exactly the line or the packet that the sentence wants."""
    kind: str
    mote: int
    facts: Moved | Unheard | Spread | Untaken | Absent | Away | Passed | Waiting | None
    row: int = 0
    is_wanted: bool = False


def last_of(span: Span, source: Source) -> int:
    """The last moment of a time, within the run."""
    return source.scenario.end if span[1] is None else min(span[1], source.scenario.end)


def sender_of(pattern: Pattern) -> int | None:
    """The mote from which a line must receive; None if any mote will do."""
    it = pattern[1] if pattern[0] == 'recv' and len(pattern) > 1 else None
    if isinstance(it, Value):
        return it.number
    return int(it) if it is not None and it.isdecimal() else None


class _Misses:
    """Looks for near misses at one mote."""

    def __init__(self, asker: Asker, missing: Missing, mote: int):
        self.asker, self.source, self.missing, self.mote = asker, asker.source, missing, mote
        self.pattern = missing.sentence.deed.patterns[0]
        self.kind = str(self.pattern[0])
        # (the process that the sentence names)
        name = self.pattern[1] if self.kind in ('print', 'start', 'leave') and len(self.pattern) > 1 else None
        self.name = name if isinstance(name, str) else None
        self.sender = sender_of(self.pattern)
        self.begin, self.end = missing.span[0], last_of(missing.span, asker.source)
        self.lines = self.source.traces.lines(mote)

    def found(self) -> Iterator[Miss]:
        """All misses, the nearest first."""
        yield from self.outside()
        absent = self.absent()
        if absent:
            # (so packets and conditions don't matter)
            yield from (absent, *self.halted())
            return
        yield from self.unheard()
        yield from self.spread()
        yield from self.halted()
        yield from self.copies()
        yield from self.process()
        yield from self.statements()

    def outside(self) -> Iterator[Miss]:
        """The wanted line, at another moment."""
        own = [it for it in self.missing.found if it.line.mote == self.mote]
        for it in [it for it in own if it.line.at > self.end][:1]:
            yield Miss('late', self.mote, Moved(it.line, self.end), it.row, True)
        for it in [it for it in own if it.line.at < self.begin][-1:]:
            yield Miss('early', self.mote, Moved(it.line, self.begin), it.row, True)

    def unheard(self) -> Iterator[Miss]:
        """The fact that no packet of the sender that the sentence names can arrive."""
        if self.sender is not None and self.sender < self.source.traces.motes and unheard(
                self.source.scenario, self.mote, self.sender):
            yield Miss('unheard', self.mote, Unheard(self.sender), is_wanted=True)

    def halted(self) -> Iterator[Miss]:
        if self.lines and self.lines[-1].kind == 'halt' and self.lines[-1].at <= self.end:
            yield Miss('halted', self.mote, None, self.row(len(self.lines) - 1))

    def row(self, place: int) -> int:
        return self.source.traces.row(At(self.mote, place))

    # Packets

    def values(self) -> Set[int]:
        """The values that are wanted."""
        wanted = next((it for it in reversed(self.pattern) if isinstance(it, Value)), None)
        if wanted is None or (self.kind == 'recv' and len(self.pattern) < 4):
            return set()
        return self.asker.finder.links.values(wanted, self.mote)

    def spread(self) -> Iterator[Miss]:
        """How far the wanted value came, if it was never on its way to this mote."""
        values = self.values() if self.sender is None else set[int]()
        if self.kind in ('print', 'send', 'recv') and (found := spread_of(self.source, values, self.mote, self.end)):
            yield Miss('spread', self.mote, *found, is_wanted=True)

    def copies(self) -> Iterator[Miss]:
        """The last copies that this mote didn't get, up to the last moment: those with a wanted value, or, if there are
        none, a few of the others."""
        if self.kind not in ('print', 'send', 'recv') or (
                self.sender is not None and not self.source.scenario.is_open(self.sender, self.mote)):
            return
        lost, values = [*self.lost()], self.values()
        is_any = not values and self.missing.sentence.deed.way == 'any'
        wanted = [it for it in lost if it[0].value in values]
        for packet, fate in wanted[-MOST_COPIES:] or lost[-MOST_OTHERS:]:
            yield Miss(fate.how, self.mote, Untaken(packet, fate), fate.row, bool(wanted) or is_any)

    def lost(self) -> Iterator[tuple[Packet, Fate]]:
        """The copies that didn't arrive, or that no process took: their packet, and their fate. For a line `recv` they
        only have to arrive."""
        for place in self.source.traces.packets_to(self.mote, self.sender):
            packet = self.source.traces.report.log[place]
            if packet.at > self.end:
                return
            fate = fate_of(self.source, place, self.mote)
            if fate.is_loss and not (self.kind == 'recv' and fate.is_received):
                yield packet, fate

    # The program

    @cached_property
    def program(self) -> Program:
        return self.source.program(self.mote)

    @cached_property
    def replay(self) -> DetailedReplay:
        """The mote from its start to its end, with each statement that it reached."""
        return self.source.detailed_replay(self.mote)

    def processes(self) -> list[int]:
        """The processes that could write the line."""
        return [it.number for it in self.program.processes if self.name in (None, it.name)]

    def own(self) -> list[Statement]:
        """The statements that write lines of this kind."""
        processes = self.processes()
        return [it for it in self.program.statements if it.kind == self.kind and it.process in processes]

    def able(self) -> list[int]:
        """The statements that could write the line. One whose value is always another one couldn't."""
        values = self.values()
        return [it.number for it in self.own() if it.constant is None or not values or it.constant in values]

    def absent(self) -> Miss | None:
        """The fact that no statement of the program could write the line, if it has none."""
        if self.kind not in ('print', 'send') or not self.processes() or self.able():
            return None
        return Miss('statement', self.mote, Absent(self.name, self.kind, bool(self.own())), is_wanted=True)

    def process(self) -> Iterator[Miss]:
        """A process that isn't on the process list at the last moment."""
        if self.name is None:
            return
        its = [(place, it) for place, it in enumerate(self.lines) if it.kind in ('start', 'leave')
               and it.process == self.name]
        before = [it for it in its if it[1].at <= self.end]
        if before and before[-1][1].kind == 'leave' or its and not before and self.kind != 'start':
            place, line = before[-1] if before else its[0]
            yield Miss('process', self.mote, Away(self.name, line, self.end), self.row(place))
        elif not its and self.kind != 'start':
            yield Miss('process', self.mote, Away(self.name, None, self.end))

    def statements(self) -> Iterator[Miss]:
        """The statements that could write the line: how often they were reached, and the condition that wasn't true.
        Then the statements at which their processes wait."""
        for number in self.able() if self.kind in ('print', 'send') else ():
            yield self.statement(number)
        for process in self.processes() if self.kind in ('print', 'send', 'leave') else ():
            yield from self.waits(process)

    def times(self, every: list[Reached]) -> Times:
        """How often a statement was reached or tested in the wanted time."""
        here = [it for it in every if self.begin <= it.at <= self.end]
        return Times(len(here), self.missing.span if len(here) < len(every) else WHOLE, here[-1].at if here else 0)

    def statement(self, number: int) -> Miss:
        """Tells how often a statement was reached; and the outermost condition around it that wasn't true, or not the
        last time."""
        found = [it for it in self.replay.reached if it.statement == number and it.holds is None]
        for around in self.program.statement(number).around:
            every = [it for it in self.replay.reached if it.statement == around.number and it.holds is not None]
            tests = [it.holds for it in every if self.begin <= it.at <= self.end]
            if tests and tests[-1] == around.is_else:
                return Miss('condition', self.mote, Passed(number, self.times(found), around, self.times(every),
                                                           set(tests) == {around.is_else}))
        return Miss('reached', self.mote, Passed(number, self.times(found)))

    def waits(self, process: int) -> Iterator[Miss]:
        """Tells at which statement a process waits at the last moment, and how often its condition has been tested
        since it began to wait."""
        statements = next((it.waits for it in reversed(self.replay.calls)
                           if it.process == process and it.at <= self.end), ())
        if not statements or not statements[-1]:
            # (it was never called, it ended, or the mote halted during the call)
            return
        waits = statements[-1]
        here = [it for it in self.replay.reached if it.statement == waits and it.at <= self.end]
        came = max(place for place, it in enumerate(here) if it.holds is None)
        until = None if self.end == self.source.scenario.end else self.end
        yield Miss('waits', self.mote, Waiting(self.program.processes[process].name, waits, here[came].at, until,
                                               len(here) - came - 1))


def misses(asker: Asker, missing: Missing) -> list[tuple[int, list[Miss]]]:
    """Returns the near misses of each mote that has too few of the wanted lines, but only for the first few of these
    motes."""
    return [(mote, list(_Misses(asker, missing, mote).found())) for mote in missing.motes[:MOST_OTHERS]]

