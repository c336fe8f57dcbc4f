"""The chain of causes of a line, back to the start of a mote: docs/use/DEBUGGING.md defines the cause of a line."""
from __future__ import annotations

from typing import NamedTuple

from motesim.faults import Fault
from motesim.report import Line
from motesim.replay.mote import BOOT, Link
from motesim.causes.source import At, Source

# The uses of a chain's time.
WAITS = ('timer', 'full', 'medium', 'queue')
# The cause of the head of a mote.
START = Link('start', BOOT)


class Hop(NamedTuple):
    """A line of a chain, with its cause.

    line     None for the head of a mote
    link     how the cause led to the line
    waited   the moments since its cause, and `wait` the thing for which it waited: timer, full (a timer that was due,
             and found the queue full), medium or queue
    program, program_row   the line of the program that wrote this line or, for a timer's event, set the timer
    """
    where: At
    row: int
    line: Line | None
    link: Link
    waited: int
    wait: str
    program: str
    program_row: int

    @property
    def at(self) -> int:
        return self.line.at if self.line else 0


def cause_of(source: Source, where: At) -> At | None:
    """The one cause of a line; None for the head of a mote, because each chain starts there."""
    if where.place < 0:
        return None
    link = source.replay(where.mote).links[where.place]
    if link.how != 'medium':
        return At(where.mote, link.line)
    line = source.traces.line(where)
    sent = source.traces.sent(line)
    if sent is None or source.traces.moment(sent) >= line.at:
        raise Fault('line %d of the report has a packet that was never sent: packet %s of mote %s' % (
            source.traces.row(where), line.number, line.sender))
    return sent


def places(source: Source, where: At) -> list[At]:
    """The line, its cause, the cause of its cause, and so on, back to the head of a mote."""
    found: list[At] = []
    at: At | None = where
    while at is not None:
        found.append(at)
        at = cause_of(source, at)
    return found


def wait_of(link: Link, at: int, before: int) -> str:
    """The thing for which a line waited after its cause: one of WAITS, or an empty text."""
    if link.how == 'timer':
        return 'full' if at > max(link.since + link.interval, link.since) else 'timer'
    if link.how == 'medium':
        return 'medium'
    return 'queue' if at > before and link.how != 'boots' else ''


def chain(source: Source, where: At) -> list[Hop]:
    """The hops from a line back to the start of a mote."""
    found = places(source, where)
    hops = []
    for at, cause in zip(found, [*found[1:], None]):
        row, name = source.traces.row(at), source.traces.programs[at.mote]
        if cause is None:
            hops.append(Hop(at, row, None, START, 0, '', '', 0))
            continue
        line, link = source.traces.line(at), source.replay(at.mote).links[at.place]
        before = source.traces.moment(cause)
        program_row = source.program(at.mote).statement(link.row).line if link.row else 0
        hops.append(Hop(at, row, line, link, line.at - before, wait_of(link, line.at, before),
                        name if program_row else '', program_row))
    return hops


class Path(NamedTuple):
    """The uses of a chain's time: for each thing for which a hop waited, the moments and the number of hops."""
    moments: int
    waits: dict[str, tuple[int, int]]


def path_of(hops: list[Hop]) -> Path:
    """Sums the moments for which the hops of a chain waited."""
    waits = {kind: (0, 0) for kind in WAITS}
    for hop in hops:
        if hop.wait:
            moments, times = waits[hop.wait]
            waits[hop.wait] = moments + hop.waited, times + 1
    return Path(hops[0].at, waits)


def received_before(source: Source, hops: list[Hop]) -> At | None:
    """The `recv` of a packet outside the chain, with the value that the chain's first line prints, sends or receives.

    Going back along the chain, its packets carry the value up to some mote. The packet is the latest one with the
    value that a process of this mote took before the mote sent or printed the value. None if there is no such packet,
    or if the chain has it."""
    first, last = hops[0].line, hops[0].where
    if first is None or first.kind not in ('print', 'send', 'recv'):
        return None
    for hop in hops:
        if hop.line and hop.line.kind == 'recv' and hop.line.value != first.value:
            break
        if hop.line and hop.line.kind == 'send':
            last = hop.where
    in_chain = {hop.where for hop in hops}
    links, lines = source.replay(last.mote).links, source.traces.lines(last.mote)
    for place in reversed(range(last.place)):
        if links[place].how == 'posted' and lines[place].kind != 'drop':
            post = links[links[place].line]
            if post.how == 'packet' and lines[post.line].value == first.value:
                found = At(last.mote, post.line)
                return None if found in in_chain else found
    return None
