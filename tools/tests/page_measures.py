"""The measures of a run, computed a second time: written only from docs/use, with a plain pass over the report."""
from __future__ import annotations

import statistics
import tomllib
from collections import Counter
from collections.abc import Iterable, Sequence
from dataclasses import dataclass
from typing import Any

Number = float | None
Row = dict[str, Any]
FATES = ('received', 'lost', 'overflowed', 'collided', 'halted', 'left')
OF_MOTE = {'sent': 'send', 'posted': 'post', 'taken': 'take', 'dropped': 'drop', 'refused': 'full', 'prints': 'print'}
NEVER = 1 << 40


@dataclass(frozen=True)
class Line:
    """A line of a trace, with its moment, its mote, and its words after the moment."""
    at: int
    mote: int
    words: tuple[str, ...]

    @property
    def value(self) -> int:
        return int(self.words[-1])


@dataclass(frozen=True)
class Copy:
    """A copy: its packet was sent at `at` by `sender`; `there` is its arrival."""
    at: int
    sender: int
    to: int
    there: int
    fate: str


@dataclass(frozen=True)
class Lines:
    """The lines of a sentence: by these motes, with these first words, in these moments; `how` is every, each (motes
    by number), some or together."""
    how: str
    motes: tuple[int, ...]
    words: tuple[str, ...]
    first: int = 0
    last: int = NEVER
    least: int = 1

    def fits(self, line: Line) -> bool:
        words = line.words
        if words[0] in ('send', 'recv'):
            words = (words[0], words[-1])
        return words[:len(self.words)] == self.words and self.first <= line.at <= self.last


def share(part: float, whole: int) -> Number:
    return part / whole if whole else None


def mean(values: Sequence[float]) -> Number:
    return share(sum(values), len(values))


class PageMeasures:
    """The measures of one run."""

    def __init__(self, scenario: str, report: str):
        self.net = tomllib.loads(scenario)
        self.end: int = self.net['end']
        self.motes = range(len(self.net['mote']))
        self.places = [(mote['x'], mote['y']) for mote in self.net['mote']]
        text = report.splitlines()
        log = text.index('medium')
        self.traces: list[list[Line]] = []
        for row in text[:log]:
            words = row.split()
            if words[0] == 'mote':
                self.traces.append([])
            else:
                self.traces[-1].append(Line(int(words[0]), len(self.traces) - 1, tuple(words[1:])))
        # moment, sender, number and value
        self.packets = [[int(word) for word in row.split()[:4]] for row in text[log + 1:-1]]
        self.copies = [Copy(packet[0], packet[1], *self._fate(packet[1], packet[2], *copy.split('@')))
                       for packet, row in zip(self.packets, text[log + 1:-1]) for copy in row.split()[4:]]

    # -- the medium

    def square(self, one: int, other: int) -> int:
        return sum((a - b) ** 2 for a, b in zip(self.places[one], self.places[other]))

    def hears(self, sender: int, to: int) -> bool:
        return sender != to and self.square(sender, to) <= self.net['medium']['range'] ** 2

    def delay(self, sender: int, to: int) -> int:
        medium = self.net['medium']
        return int(medium['base'] + self.square(sender, to) // medium['per'])

    def hops(self, root: int) -> dict[int, int]:
        """The hops to the motes that packets can reach, over links that don't lose every packet."""
        dead = {(loss['from'], loss['to']) for loss in self.net.get('loss', []) if loss['every'] == 1}
        found, edge = {root: 0}, [root]
        while edge:
            edge = [to for to in self.motes if to not in found
                    and any(self.hears(sender, to) and (sender, to) not in dead for sender in edge)]
            found.update(dict.fromkeys(edge, max(found.values()) + 1))
        return found

    def _fate(self, sender: int, number: int, to: str, there: str) -> tuple[int, int, str]:
        if there == 'lost':
            return int(to), NEVER, 'lost'
        if int(there) > self.end:
            return int(to), int(there), 'left'
        for line in self.traces[int(to)]:
            if line.at == int(there) and line.words[1:3] == (str(sender), str(number)):
                if line.words[0] in ('recv', 'lost', 'collide'):
                    ended = {'recv': 'received', 'lost': 'overflowed', 'collide': 'collided'}
                    return int(to), int(there), ended[line.words[0]]
        return int(to), int(there), 'halted'

    # -- tools/summary

    def fates(self, copies: Iterable[Copy]) -> Row:
        counts = Counter(copy.fate for copy in copies)
        row: Row = {fate: counts[fate] for fate in FATES}
        return {'copies': sum(row.values()), **row, 'ratio': share(row['received'], sum(row.values()) - row['left'])}

    def mote_row(self, motes: Sequence[int]) -> Row:
        kinds = Counter(line.words[0] for mote in motes for line in self.traces[mote])
        row = {name: kinds[kind] for name, kind in OF_MOTE.items()}
        return {**row, **self.fates(copy for copy in self.copies if copy.to in motes)}

    def halt(self, mote: int) -> int | None:
        return next((line.at for line in self.traces[mote] if line.words[0] == 'halt'), None)

    def summary(self) -> tuple[list[Row], Row]:
        rows = [{**self.mote_row([mote]), 'halt': self.halt(mote)} for mote in self.motes]
        return rows, {**self.mote_row(self.motes), 'halt': sum(self.halt(mote) is not None for mote in self.motes)}

    def links(self) -> list[Row]:
        return [{'from': one, 'to': other, 'delay': self.delay(one, other),
                 **self.fates(copy for copy in self.copies if (copy.sender, copy.to) == (one, other))}
                for one in self.motes for other in self.motes if self.hears(one, other)]

    # -- tools/summary --flow

    def messages(self, source: str, sink: str, least: int = 0, most: int = NEVER) -> list[tuple[int, int, list[Line]]]:
        """The messages: origin, beginning, and deliveries at other motes in the order of time."""
        begun: dict[int, tuple[int, int]] = {}
        starts = [(at, sender, value) for at, sender, _, value in self.packets]
        if source:
            starts = sorted((line.at, line.mote, line.value) for trace in self.traces for line in trace
                            if line.words[:2] == ('print', source))
        for at, mote, value in starts:
            if least <= value <= most:
                begun.setdefault(value, (mote, at))
        ends = sorted((line for trace in self.traces for line in trace if line.words[:2] == ('print', sink)),
                      key=lambda line: line.at)
        return [(mote, at, [line for line in ends if line.value == value and line.at >= at and line.mote != mote])
                for value, (mote, at) in begun.items()]

    def flow_row(self, messages: Sequence[tuple[int, int, list[Line]]]) -> Row:
        delays, copies, hops = [], 0, []
        for mote, at, lines in messages:
            firsts: dict[int, int] = {}
            for line in lines:
                firsts.setdefault(line.mote, line.at - at)
            delays += list(firsts.values())
            copies += len(lines)
            its = self.hops(mote)
            hops += [its[to] for to in firsts if to in its]
        delivered = sum(bool(lines) for _, _, lines in messages)
        return {'sent': len(messages), 'delivered': delivered, 'ratio': share(delivered, len(messages)),
                'reached': share(len(delays), len(messages)), 'copies': copies, 'duplicates': copies - len(delays),
                'hops': mean(hops), 'least': min(delays, default=None), 'most': max(delays, default=None),
                'middle': statistics.median(delays) if delays else None}

    # -- measures

    def loss(self) -> Number:
        counts = Counter(copy.fate for copy in self.copies)
        return share(counts['lost'], len(self.copies) - counts['left'])

    def reachable(self) -> Number:
        net, self.net = self.net, {**self.net, 'loss': []}
        found = len(self.hops(0)) / len(self.motes)
        self.net = net
        return found

    def of(self, its: Lines, since: int = 0) -> list[list[Line]]:
        """The lines that a sentence is about, in the order of time: for each mote or, if together, for all."""
        groups = [its.motes] if its.how == 'together' else [(mote,) for mote in its.motes]
        return [sorted((line for mote in group for line in self.traces[mote] if its.fits(line) and line.at >= since),
                       key=lambda line: line.at) for group in groups]

    def moment(self, its: Lines, since: int = 0) -> int | None:
        moments = [lines[its.least - 1].at if len(lines) >= its.least else NEVER for lines in self.of(its, since)]
        found = min(moments) if its.how == 'some' else max(moments, default=NEVER)
        return None if found == NEVER else found

    def holds(self, its: Lines) -> int:
        return int(self.moment(its) is not None)

    def last(self, its: Lines) -> int | None:
        return max((line.at for lines in self.of(its) for line in lines), default=None)

    def count(self, its: Lines) -> int:
        return sum(map(len, self.of(its)))

    def reaching(self, its: Lines) -> int:
        """`motes:`"""
        return sum(len(lines) >= its.least for lines in self.of(its))

    def delay_between(self, one: Lines, other: Lines) -> int | None:
        first = self.moment(one)
        then = None if first is None else self.moment(other, first)
        return None if then is None or first is None else then - first

    def delivery(self, one: Lines, other: Lines) -> Number:
        """Each line of the second sentence counts for one message."""
        messages = sorted((line for lines in self.of(one) for line in lines), key=lambda line: line.at)
        groups = [other.motes] if other.how in ('some', 'together') else [(mote,) for mote in other.motes]
        reached = 0
        for group in groups:
            waiting = list(messages)
            for line in sorted((line for lines in self.of(other) for line in lines), key=lambda line: line.at):
                first = next((message for message in waiting if line.mote in group and message.value == line.value
                              and message.at <= line.at), None)
                if first:
                    waiting.remove(first)
            reached += len(messages) - len(waiting)
        return share(reached, len(messages) * len(groups))
