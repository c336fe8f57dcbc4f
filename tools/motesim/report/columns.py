"""Reports as columns: arrays of numbers, by the kind of line.

A `Trace` has the lines of all motes, one after another; a `Log` has the packets of the medium with their copies. Code
for millions of lines works on these arrays; each `Line` and `Packet` is made from them when it is needed.
"""
from __future__ import annotations

from array import array
from bisect import bisect_right
from collections.abc import Callable, Iterable, Iterator, Sequence
from functools import cached_property
from itertools import chain, compress, repeat
from typing import Any, TypeVar, overload

from motesim.report.lines import FIELDS, FORMS, Copy, Line, Packet

KINDS = tuple(FIELDS)
CODES = {kind: code for code, kind in enumerate(KINDS)}
# For each kind, the bytes that select its lines from the codes of all lines.
MASKS = [bytes(int(byte == code) for byte in range(256)) for code in range(len(KINDS))]
# The size of a field's numbers, as a type code of `array`.
TYPES = {'process': 'H', 'event': 'H', 'word': 'H', 'value': 'H', 'sender': 'I', 'serial': 'Q', 'number': 'Q'}
# The number for a process or an event if a line has none, and that for the arrival of a copy that the medium lost.
NONE = 0xFFFF
LOST = 2 ** 64 - 1

Fields = dict[str, 'array[int]']
Item = TypeVar('Item')


def new_fields(kind: str) -> Fields:
    """Empty columns for one kind of line."""
    return {field: array(TYPES[field]) for field in FIELDS[kind].split()}


class Trace:
    """The lines of all motes.

    names   of processes and events
    starts  the lines of mote m are starts[m] up to starts[m + 1]
    at      the moment of each line
    kind    the kind of each line: its place in KINDS
    of      for each kind the fields of its lines, one array each, in the order of the lines
    """

    def __init__(self, names: list[str]) -> None:
        self.names = names
        self.starts = array('I', [0])
        self.at = array('I')
        self.kind = bytearray()
        self.of: dict[str, Fields] = {kind: new_fields(kind) for kind in KINDS}

    def __len__(self) -> int:
        return len(self.at)

    def start(self, mote: int) -> int:
        """The index of a mote's first line."""
        return self.starts[mote]

    def mote_of(self, index: int) -> int:
        """The mote whose line this is."""
        return bisect_right(self.starts, index) - 1

    @cached_property
    def _before(self) -> list[list[int]]:
        """For each mote, how many lines of each kind are before the mote's own lines."""
        counts = [0] * len(KINDS)
        found = [counts]
        for begin, end in zip(self.starts, self.starts[1:]):
            counts = [count + self.kind.count(code, begin, end) for code, count in enumerate(counts)]
            found.append(counts)
        return found

    def place(self, mote: int, kind: str) -> slice:
        """The place of a mote's lines of one kind among all lines of this kind."""
        code = CODES[kind]
        return slice(self._before[mote][code], self._before[mote + 1][code])

    def rows(self, mote: int, kind: str) -> list[int]:
        """The lines of a kind that a mote has, by their indices."""
        begin, end = self.starts[mote], self.starts[mote + 1]
        return list(compress(range(begin, end), self.kind[begin:end].translate(MASKS[CODES[kind]])))

    def moments(self, mote: int, kind: str) -> Sequence[int]:
        """The moments of a mote's lines of one kind."""
        return list(map(self.at.__getitem__, self.rows(mote, kind)))

    def processes(self) -> set[str]:
        """The names of all processes that have lines."""
        return self.words_of('process')

    def words_of(self, field: str) -> set[str]:
        """The words that lines have in a field, which is `process` or `event`."""
        return {self.names[it] for fields in self.of.values() for it in set(fields.get(field, ()))}

    def all_rows(self, kind: str) -> array[int]:
        """All lines of a kind, by their indices."""
        return array('I', compress(range(len(self)), self.kind.translate(MASKS[CODES[kind]])))

    def _named(self, field: str, column: Iterable[int]) -> Iterable[Any]:
        """The names that a column's numbers mean, if its field has names."""
        return map(self.names.__getitem__, column) if field in ('process', 'event') else column

    def line(self, index: int) -> Line:
        """A line by its index."""
        mote, code = self.mote_of(index), self.kind[index]
        kind = KINDS[code]
        place = self._before[mote][code] + self.kind.count(code, self.starts[mote], index)
        values = [next(iter(self._named(field, column[place:place + 1]))) for field, column in self.of[kind].items()]
        made: Line = tuple.__new__(FORMS[kind], (mote, self.at[index], *values, kind))
        return made

    def lines(self, mote: int, first: int = 0, end: int | None = None, kinds: Iterable[str] = KINDS) -> Iterator[Line]:
        """The lines of a mote, from one line up to another; if kinds are given, only the lines of these kinds."""
        begin, last = self.starts[mote], self.starts[mote + 1]
        end = last if end is None else min(last, begin + end)
        first += begin
        made: dict[int, Iterator[Line]] = {}
        codes = self.kind[first:end]
        wanted = {CODES[kind] for kind in kinds}
        for code in wanted.intersection(codes):
            kind = KINDS[code]
            place = self._before[mote][code] + self.kind.count(code, begin, first)
            count = codes.count(code)
            moments = compress(self.at[first:end], codes.translate(MASKS[code]))
            fields = [self._named(field, column[place:place + count]) for field, column in self.of[kind].items()]
            made[code] = map(tuple.__new__, repeat(FORMS[kind]), zip(repeat(mote), moments, *fields, repeat(kind)))
        others = bytes(code for code in range(len(KINDS)) if code not in wanted)
        return map(next, map(made.__getitem__, codes.translate(None, others) if others else codes))

    def column(self, name: str, fields: dict[str, str], nothing: int) -> array[int]:
        """A column in the order of the lines: for each kind the field that it uses, or `nothing`."""
        parts: list[Iterator[int]] = [iter(self.of[kind][fields[kind]]) if kind in fields else repeat(nothing)
                                      for kind in KINDS]
        following: Callable[[Iterator[int]], int] = next
        return array(name, map(following, map(parts.__getitem__, self.kind)))

    def _of_field(self, type_of: str, names: str, nothing: int = 0) -> array[int]:
        chosen = {kind: field for kind in KINDS for field in FIELDS[kind].split() if field in names.split()}
        return self.column(type_of, chosen, nothing)

    @cached_property
    def process(self) -> array[int]:
        """The process of each line: its place in `names`, or NONE."""
        return self._of_field('H', 'process', NONE)

    @cached_property
    def event(self) -> array[int]:
        """The event of each line that has one: its place in `names`, or NONE."""
        return self._of_field('H', 'event', NONE)

    @cached_property
    def mote(self) -> array[int]:
        """The mote of each line."""
        return array('I', chain.from_iterable(repeat(mote, end - begin) for mote, (begin, end) in enumerate(
            zip(self.starts, self.starts[1:]))))

    @cached_property
    def number(self) -> array[int]:
        """The serial, or the number of the packet, of each line, or 0."""
        return self._of_field('Q', 'serial number')

    @cached_property
    def sender(self) -> array[int]:
        """The sender of each line that has one, or 0."""
        return self._of_field('I', 'sender')

    @cached_property
    def value(self) -> array[int]:
        """The value, or the word, of each line, or 0."""
        return self._of_field('H', 'word value')


class Made(Sequence[Item]):
    """Items that are made when they are needed."""
    __slots__ = ()

    def item(self, index: int) -> Item:
        """The item at a place."""
        raise NotImplementedError

    def some(self, indices: range) -> list[Item]:
        """The items at these places."""
        return list(map(self.item, indices))

    @overload
    def __getitem__(self, index: int) -> Item: ...

    @overload
    def __getitem__(self, index: slice) -> list[Item]: ...

    def __getitem__(self, index: int | slice) -> Item | list[Item]:
        if isinstance(index, slice):
            return self.some(range(*index.indices(len(self))))
        if not -len(self) <= index < len(self):
            raise IndexError('there are %d' % len(self))
        return self.item(index % len(self))

    def __iter__(self) -> Iterator[Item]:
        return map(self.item, range(len(self)))

    def __eq__(self, other: object) -> bool:
        return isinstance(other, Sequence) and len(self) == len(other) and all(a == b for a, b in zip(self, other))

    __hash__ = None  # type: ignore[assignment]


class MoteLines(Made[Line]):
    """The lines of one mote."""
    __slots__ = ('trace', 'mote')

    def __init__(self, trace: Trace, mote: int):
        self.trace, self.mote = trace, mote

    def __len__(self) -> int:
        return self.trace.starts[self.mote + 1] - self.trace.starts[self.mote]

    def item(self, index: int) -> Line:
        return self.trace.line(self.trace.starts[self.mote] + index)

    def some(self, indices: range) -> list[Line]:
        if indices.step != 1:
            return super().some(indices)
        return list(self.trace.lines(self.mote, indices.start, indices.stop)) if indices else []

    def __iter__(self) -> Iterator[Line]:
        return self.trace.lines(self.mote)


class Log(Made[Packet]):
    """The log of the medium: packets, and their copies.

    at, sender, number, value   of each packet
    first        the copies of packet k are first[k] up to first[k + 1]
    to, arrival  of each copy; LOST if the medium lost it
    """

    def __init__(self) -> None:
        self.at, self.sender, self.number, self.value = array('I'), array('I'), array('Q'), array('H')
        self.first = array('I', [0])
        self.to, self.arrival = array('I'), array('Q')

    def __len__(self) -> int:
        return len(self.at)

    def of_copies(self, column: Iterable[int]) -> Iterator[int]:
        """For each copy, the value of its packet in a column."""
        counts = map(int.__sub__, self.first[1:], self.first)
        return chain.from_iterable(repeat(value, count) for value, count in zip(column, counts))

    def item(self, index: int) -> Packet:
        begin, end = self.first[index], self.first[index + 1]
        copies = tuple(Copy(to, None if at == LOST else at)
                       for to, at in zip(self.to[begin:end], self.arrival[begin:end]))
        return Packet(self.at[index], self.sender[index], self.number[index], self.value[index], copies)
