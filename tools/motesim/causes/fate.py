"""The fate of a copy of a packet, from its sending to the process that takes it: docs/use/REPORT.md."""
from __future__ import annotations

from typing import NamedTuple

from motesim.report import OUTCOMES
from motesim.causes.source import At, Source

# Fates that are kinds of another one: a mote halted before its radio process ran, or before a process took the event.
KINDS = {'unhandled': 'halted', 'untaken': 'halted'}


class Fate(NamedTuple):
    """The fate of a copy.

    what     taken, dropped, waiting (in the queue at the end), full, deaf, overflowed, collided, lost, halted, left,
             unheard, forgotten (the mote booted again), or one of KINDS
    at       the moment at which the fate was decided
    where    the line of a trace that shows the fate; None if no line shows it
    row      the number of the line in the report that shows the fate, also a line of the medium
    process  the process that took the event, or that wasn't on the process list
    copy     the sender, the number and the receiver of a copy that the medium didn't carry
    """
    what: str
    at: int
    where: At | None
    row: int
    process: str = ''
    copy: tuple[int, int, int] = (0, 0, 0)

    @property
    def how(self) -> str:
        return KINDS.get(self.what, self.what)

    @property
    def is_loss(self) -> bool:
        return self.what not in ('taken', 'waiting')

    @property
    def is_received(self) -> bool:
        return self.what not in (*OUTCOMES, 'unheard')


def _shown(source: Source, what: str, where: At, process: str = '') -> Fate:
    """A fate that a line of a trace shows."""
    return Fate(what, source.traces.moment(where), where, source.traces.row(where), process)


def after_post(source: Source, post: At) -> Fate:
    """The fate of an event that was posted to the receiver."""
    lines = source.traces.lines(post.mote)
    for place in range(post.place + 1, len(lines)):
        line = lines[place]
        if line.kind == 'boots':
            return _shown(source, 'forgotten', At(post.mote, place))
        if line.kind in ('take', 'drop') and line.serial == lines[post.place].serial:
            what = 'taken' if line.kind == 'take' else 'dropped'
            return _shown(source, what, At(post.mote, place), line.process or '')
    if lines[-1].kind == 'halt':
        return _shown(source, 'untaken', At(post.mote, len(lines) - 1))
    return _shown(source, 'waiting', post)


def after_recv(source: Source, recv: At) -> Fate:
    """The fate of a packet that was received."""
    links = source.replay(recv.mote).links
    for place in range(recv.place + 1, len(links)):
        if links[place].how == 'packet' and links[place].line == recv.place:
            where = At(recv.mote, place)
            kind = source.traces.line(where).kind
            return after_post(source, where) if kind == 'post' else _shown(source, kind, where)
        if links[place].how == 'boots':
            return _shown(source, 'forgotten', At(recv.mote, place))
    return _shown(source, 'unhandled', recv)


def fate_of(source: Source, packet: int, to: int) -> Fate:
    """The fate of a packet, by its place in the log of the medium, on its way to a mote."""
    report, log = source.traces.report, source.traces.report.log
    sender, number = log.sender[packet], log.number[packet]
    copy = next((it for it in range(*log.first[packet:packet + 2]) if log.to[it] == to), None)
    what = 'unheard' if copy is None else OUTCOMES[report.fates[copy]]
    if copy is None or what in ('lost', 'left'):
        return Fate(what, log.at[packet] if copy is None else log.arrival[copy], None, report.medium_row + 1 + packet,
                    copy=(sender, number, to))
    if what == 'halted':
        return _shown(source, what, At(to, len(source.traces.lines(to)) - 1))._replace(at=log.arrival[copy])
    where = At(to, source.traces.arrivals(to)[sender, number])
    return after_recv(source, where) if what == 'received' else _shown(source, what, where)
