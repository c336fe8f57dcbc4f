"""The lines of a report: lines of traces by their kinds, packets and their copies."""
from __future__ import annotations

from collections import namedtuple
from typing import Any, NamedTuple

MOST_MOMENT = 1_000_000
MOST_WORD = 65_535
MOST_NUMBER = 2 ** 62 - 1


class Line(tuple[Any, ...]):
    """A line of a trace. A field that its kind lacks is None.

    kind      its second word, one of `FORMS`
    mote, at  the mote that wrote it, and the moment
    process   P: a process by its name; `all` if an event is for all processes
    serial    S: the serial of an event of this mote
    event     E: an event by its name
    word      W: its word
    sender    F: the mote that sent a packet (the line `send` is the mote's own, and has none)
    number    N: the packet's number at its sender
    value     V: the printed value, or a packet's value

    packet    the sender and the number of the packet, if the line has one

    A line is a tuple, so two lines are compared by their contents. `str(line)` is the line's text (not `'%s' % line`,
    which formats the items of a tuple).
    """
    __slots__ = ()
    mote: int
    at: int
    kind: str = ''
    process: str | None = None
    serial: int | None = None
    event: str | None = None
    word: int | None = None
    sender: int | None = None
    number: int | None = None
    value: int | None = None
    packet: tuple[int, int] | None = None

    def __str__(self) -> str:
        return ' '.join([str(self.at), self.kind, *map(str, self[2:-1])])


def _form(kind: str, fields: str) -> type[Line]:
    """The class of the lines of one kind: tuples of the mote, the moment, these fields and the kind."""
    form = namedtuple(kind, 'mote at %s kind' % fields)  # type: ignore[misc]
    names: dict[str, Any] = {'__slots__': (), '__str__': Line.__str__, '__module__': __name__}
    if 'sender' in fields:
        names['packet'] = property(lambda line: (line.sender, line.number))
    if kind == 'send':
        names['packet'] = property(lambda line: (line.mote, line.number))
    made: type[Line] = type(kind, (form, Line), names)
    return made


# The kinds of lines, each with its fields in the order of the text.
FIELDS = {
    'start': 'process', 'leave': 'process', 'post': 'serial process event word', 'full': 'process event word',
    'take': 'serial process', 'drop': 'serial process', 'print': 'process value', 'busy': 'process',
    'send': 'number value', 'recv': 'sender number value', 'lost': 'sender number', 'collide': 'sender number',
    'deaf': 'sender number', 'halt': '', 'boots': '',
}
FORMS: dict[str, type[Line]] = {kind: _form(kind, fields) for kind, fields in FIELDS.items()}


class Copy(NamedTuple):
    """A copy of a packet in the medium: the mote that it goes to, and its arrival, or None if it is lost."""
    to: int
    at: int | None

    def __str__(self) -> str:
        return '%d@%s' % (self.to, 'lost' if self.at is None else self.at)


class Packet(NamedTuple):
    """A line of the log of the medium."""
    at: int
    sender: int
    number: int
    value: int
    copies: tuple[Copy, ...]

    def __str__(self) -> str:
        return ' '.join(map(str, [*self[:4], *self.copies]))
