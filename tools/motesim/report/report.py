"""Reads reports: docs/use/REPORT.md describes them.

A report is read strictly: each line has to have a form of docs/use/REPORT.md, with allowed names and numbers. Moments
don't decrease within a trace, packets and their receivers are in order, and nothing follows `left K`. It isn't checked
that the traces agree with the log of the medium. A text that breaks one of these rules raises a `ReportFault`, which
has the line of the error. `Report.text()` returns the text that was read, byte for byte.
"""
from __future__ import annotations

from array import array
from bisect import bisect_right
from collections.abc import Iterable, Iterator, Sequence
from functools import cached_property
from itertools import compress, count, repeat
from operator import add, mul
from typing import NamedTuple

from motesim.report import reader
from motesim.report.columns import KINDS, LOST, Log, MoteLines, Trace
from motesim.report.lines import Copy, Line, Packet


class Mote:
    """A mote with its trace. The trace begins on line `row` of the report, and `lines[i]` is on line `row + 1 + i`."""
    __slots__ = ('number', 'program', 'row', 'lines')

    def __init__(self, number: int, program: str, row: int, lines: Sequence[Line]):
        self.number, self.program, self.row, self.lines = number, program, row, lines

    def __str__(self) -> str:
        return 'mote %d %s' % (self.number, self.program)

    def halted(self) -> int | None:
        """The moment at which the mote halted, or None."""
        return self.lines[-1].at if self.lines and self.lines[-1].kind == 'halt' else None


class Outcome(NamedTuple):
    """The outcome of a copy. `what` is one of

    lost        the medium lost it
    received    the mote received it: it has a line `recv`
    overflowed  eight packets were waiting already: a line `lost`
    collided    it met others: a line `collide`
    halted      it arrived at a mote that had halted: no line
    left        it would have arrived after the end: no line
    """
    packet: Packet
    copy: Copy
    what: str


OUTCOMES = ('received', 'lost', 'overflowed', 'collided', 'halted', 'left')
_LOST, _HALTED, _LEFT = (OUTCOMES.index(it) for it in ('lost', 'halted', 'left'))
# The kinds of lines of the copies that have one.
BECAME = {'received': 'recv', 'overflowed': 'lost', 'collided': 'collide'}


class Report:
    """A report: its motes with their traces, the log of the medium, and how many copies are left.

    `medium_row` is the line of the word `medium`: `medium[i]` is on line `medium_row + 1 + i`.

    `trace` and `log` have all lines and packets as columns (`motesim.report.columns`); the items of `mote.lines` and
    of `medium` are made when they are needed, so that a report of millions of lines needs little memory.
    """

    def __init__(self, programs: Sequence[str], trace: Trace, log: Log, left: int):
        self.trace, self.log, self.left = trace, log, left
        self.motes = [Mote(number, program, trace.starts[number] + number + 1, MoteLines(trace, number))
                      for number, program in enumerate(programs)]
        self.medium: Sequence[Packet] = log
        self.medium_row = len(trace) + len(self.motes) + 1

    @property
    def names(self) -> list[str]:
        """The names of processes and events, by their places."""
        return self.trace.names

    @classmethod
    def parse(cls, text: str | bytes) -> Report:
        """Reads a report; any other text raises a `ReportFault`."""
        return cls(*reader.read(reader.text_of(text)))

    def lines(self, *kinds: str) -> Iterator[Line]:
        """The lines of all traces, mote after mote; if kinds are named, only the lines of these kinds."""
        for mote in self.motes:
            yield from self.trace.lines(mote.number, kinds=kinds or KINDS)

    def rows(self) -> Iterator[str]:
        """The lines of the report's text, without their ends."""
        for mote in self.motes:
            yield str(mote)
            yield from map(str, mote.lines)
        yield 'medium'
        yield from map(str, self.medium)
        yield 'left %d' % self.left

    def row(self, number: int) -> str:
        """A line of the report's text by its number, counted from 1, without its end."""
        if number == self.medium_row:
            return 'medium'
        if number > self.medium_row:
            packet = number - self.medium_row - 1
            return str(self.log[packet]) if packet < len(self.log) else 'left %d' % self.left
        mote = self.motes[bisect_right(self.motes, number, key=lambda it: it.row) - 1]
        return str(mote) if number == mote.row else str(mote.lines[number - mote.row - 1])

    @property
    def length(self) -> int:
        """The number of lines of the report's text."""
        return self.medium_row + len(self.log) + 1

    def text(self) -> str:
        """The text of the report, exactly as it was read."""
        return ''.join(row + '\n' for row in self.rows())

    def place_of(self, sender: int, number: int) -> int | None:
        """The place of a packet in the log, by its sender and its number at this sender."""
        places = compress(count(), map(number.__eq__, self.log.number))
        return next((place for place in places if self.log.sender[place] == sender), None)

    def packet(self, sender: int, number: int) -> Packet | None:
        """A packet by its sender and its number."""
        place = self.place_of(sender, number)
        return None if place is None else self.log[place]

    def outcomes(self) -> list[Outcome]:
        """The outcome of each copy, in the order of the log of the medium. `fates` has them as numbers."""
        became = iter(self.fates)
        return [Outcome(packet, copy, OUTCOMES[next(became)]) for packet in self.log for copy in packet.copies]

    @cached_property
    def fates(self) -> bytearray:
        """The outcome of each copy in the columns of the log: its place in OUTCOMES.

        A copy without a line was lost by the medium, arrived at a mote that had halted, or is one of the last `left`
        copies, which would arrive after the end.
        """
        log = self.log
        keys = list(log.of_copies(list(_keys(log.sender, log.number, len(self.motes)))))
        copies = [array('I') for _ in self.motes]
        for index, to in enumerate(log.to):
            copies[to].append(index)
        found = bytearray(len(keys))
        for mote, its in enumerate(copies):
            became = self._became(mote)
            for index in its:
                found[index] = _LOST if log.arrival[index] == LOST else became.get(keys[index], _LEFT)
        silent = list(compress(count(), map(_LEFT.__eq__, found)))
        silent.sort(key=lambda index: (log.arrival[index], index))
        for index in silent[:max(0, len(silent) - self.left)]:
            found[index] = _HALTED
        return found

    def _became(self, mote: int) -> dict[int, int]:
        """The outcomes of the packets that arrived at a mote, from the mote's lines, by the keys of the packets."""
        found: dict[int, int] = {}
        for fate, kind in BECAME.items():
            place, fields = self.trace.place(mote, kind), self.trace.of[kind]
            keys = _keys(fields['sender'][place], fields['number'][place], len(self.motes))
            found.update(zip(keys, repeat(OUTCOMES.index(fate))))
        return found


def _keys(senders: Iterable[int], numbers: Iterable[int], motes: int) -> Iterator[int]:
    """The keys of packets: for each packet one number, made from its sender and its number."""
    return map(add, map(mul, numbers, repeat(motes)), senders)
