"""Reads reports line by line into columns, and finds the first line with an error."""
from __future__ import annotations

import re
from collections.abc import Callable, Iterator
from typing import NamedTuple, NoReturn

from motesim.faults import Fault
from motesim.notation.grammar import EVENTS, RESERVED, SYSTEM
from motesim.report.columns import CODES, LOST, Log, Trace
from motesim.report.lines import FIELDS, MOST_MOMENT, MOST_NUMBER, MOST_WORD


class ReportFault(Fault):
    """A text that is not a report: its first line with an error, and the expected words."""

    def __init__(self, row: int, expected: str, found: str | None, is_cut: bool = False):
        self.row, self.expected, self.found = row, expected, found
        shown = 'the text ends'
        if found is not None:
            shown = 'there is %r' % (found if len(found) <= 80 else found[:80] + '..')
            shown += ' (a line of a report ends with only LF, not as on Windows)' if found.endswith('\r') else ''
        where = 'the report is cut off at line %d' % row if is_cut else 'line %d' % row
        super().__init__('%s: expected %s, but %s' % (where, expected, shown))


def text_of(text: str | bytes) -> str:
    """The text of a report, which is in ASCII."""
    if isinstance(text, str) and text.isascii():
        return text
    data = text.encode('utf-8', 'surrogatepass') if isinstance(text, str) else text
    try:
        return data.decode('ascii')
    except UnicodeDecodeError as fault:
        begin = data.rfind(b'\n', 0, fault.start) + 1
        found = data[begin:].split(b'\n', 1)[0].decode('utf-8', 'backslashreplace')
        raise ReportFault(data.count(b'\n', 0, begin) + 1, 'text in ASCII', found) from None


class Bad(Exception):
    """A word that isn't allowed; its text is the expected one."""


class Words(dict[str, int]):
    """The words of one kind that occurred, each with its number in a column. Each word is examined only when it occurs
    for the first time."""
    __slots__ = ('expected',)

    def __init__(self, expected: str):
        super().__init__()
        self.expected = expected

    def value(self, word: str) -> int | None:
        """The number of the word, or None."""
        raise NotImplementedError

    def __missing__(self, word: str) -> int:
        value = self.value(word)
        if value is None:
            raise Bad(self.expected)
        self[word] = value
        return value


class Numbers(Words):
    """Decimal numbers without unnecessary zeros."""
    __slots__ = ('most',)

    def __init__(self, what: str, most: int):
        super().__init__('%s, 0 to %d' % (what, most))
        self.most = most

    def value(self, word: str) -> int | None:
        is_number = word.isdecimal() and word.isascii() and (word == '0' or word[0] != '0') and len(word) < 20
        return int(word) if is_number and int(word) <= self.most else None


class Names(Words):
    """Names that a program can declare, and some of the notation's own; a name's number is its place in a list."""
    __slots__ = ('own', 'all_names')

    def __init__(self, what: str, own: tuple[str, ...], all_names: list[str]):
        super().__init__(what)
        self.own, self.all_names = own, all_names

    def value(self, word: str) -> int | None:
        if word not in self.own and (not re.fullmatch('[a-z][a-z0-9_]{0,15}', word) or word in RESERVED):
            return None
        if word not in self.all_names:
            self.all_names.append(word)
        return self.all_names.index(word)


class Form(NamedTuple):
    """A kind of lines: its code, the number of its words, and for each field its words and its column."""
    code: int
    length: int
    fields: list[tuple[Words, Callable[[int], None]]]


class Found(NamedTuple):
    """The contents of a report."""
    programs: list[str]
    trace: Trace
    log: Log
    left: int


class _Reader:
    """Reads the lines of a report from the first to the last."""

    def __init__(self, text: str):
        self.rows = text.split('\n')
        self.at = 0
        # (no other line has this beginning: a trace's lines and the medium's begin with a moment)
        self.count = text.startswith('mote ') + text.count('\nmote ')
        self.programs, self.trace, self.log = list[str](), Trace([]), Log()
        self.moments = Numbers('a moment', MOST_MOMENT)
        self.numbers, self.words = Numbers('a number', MOST_NUMBER), Numbers('a word of 16 bits', MOST_WORD)
        self.senders = Numbers('a mote of this report', self.count - 1)
        self.arrivals = Numbers('an arrival', MOST_NUMBER)
        names = self.trace.names
        process, target = Names('a process', SYSTEM, names), Names('a process or all', SYSTEM + ('all',), names)
        tables = {'process': process, 'event': Names('an event', EVENTS, names), 'word': self.words,
                  'value': self.words, 'sender': self.senders, 'number': self.numbers, 'serial': self.numbers}
        self.forms = {kind: Form(CODES[kind], len(columns) + 2, [
            (target if kind in ('post', 'full') and field == 'process' else tables[field], column.append)
            for field, column in columns.items()]) for kind, columns in self.trace.of.items()}

    def fault(self, expected: str, row: int | None = None) -> NoReturn:
        row = self.at if row is None else row
        is_end = row >= len(self.rows) or (row == len(self.rows) - 1 and not self.rows[row])
        # (a text that is cut off within a line has no line end, and an empty text is not a report)
        is_cut = row > 0 and row >= len(self.rows) - 1
        raise ReportFault(row + 1, expected, None if is_end else self.rows[row], is_cut)

    def read(self) -> Found:
        motes = max(1, self.count)
        for number in range(motes):
            head = re.fullmatch('mote %d ([A-Za-z0-9_-]{1,32})' % number, self.rows[self.at])
            if not head:
                self.fault("'mote %d' and the name of its program" % number)
            self.programs.append(head[1])
            self.at += 1
            self.read_trace(number)
            self.trace.starts.append(len(self.trace.at))
        if self.rows[self.at] != 'medium':
            self.fault("'medium'" if self.count == motes else "'mote %d' and a program" % motes)
        self.at += 1
        self.read_log()
        return Found(self.programs, self.trace, self.log, self.read_left())

    def read_trace(self, mote: int) -> None:
        """Reads the lines up to the next mote or the medium."""
        last, has_halted, halt, boots = 0, False, CODES['halt'], CODES['boots']
        rows, forms, moments, add_moment, add_kind = (
            self.rows, self.forms, self.moments, self.trace.at.append, self.trace.kind.append)
        for at in range(self.at, len(rows)):
            words = rows[at].split(' ')
            form = forms.get(words[1]) if len(words) > 1 else None
            if form is None or len(words) != form.length:
                if words[0] in ('mote', 'medium'):
                    self.at = at
                    return
                self.bad_line(at, words)
            try:
                moment = moments[words[0]]
                for (table, add), word in zip(form.fields, words[2:]):
                    add(table[word])
            except Bad as bad:
                self.fault(str(bad), at)
            if moment < last:
                self.fault('a moment from %d on' % last, at)
            if has_halted and form.code != boots:
                self.fault('nothing more of mote %d, which has halted' % mote, at)
            last, has_halted = moment, form.code == halt
            add_moment(moment)
            add_kind(form.code)
        self.fault("a line of mote %d, the next mote or 'medium'" % mote, len(rows))

    def bad_line(self, at: int, words: list[str]) -> NoReturn:
        """The fault of a line that isn't one of a trace."""
        if len(words) > 1 and words[1] in FIELDS:
            self.fault(' '.join(['MOMENT', words[1], *FIELDS[words[1]].upper().split()]), at)
        if at == len(self.rows) - 1:
            self.fault("a line of a trace, 'mote' or 'medium'", at)
        self.fault('a moment and one of %s' % ', '.join(FIELDS), at)

    def read_log(self) -> None:
        """Reads the packets up to the last line."""
        last, log = (-1, -1, -1), self.log
        for at in range(self.at, len(self.rows)):
            words = self.rows[at].split(' ')
            if words[0] == 'left':
                self.at = at
                return
            if len(words) < 4:
                self.fault("MOMENT SENDER NUMBER VALUE and the packet's copies, or 'left' and a number", at)
            try:
                moment, sender = self.moments[words[0]], self.senders[words[1]]
                number, value = self.numbers[words[2]], self.words[words[3]]
                for to, arrival in self.copies(at, words[4:], moment, sender):
                    log.to.append(to)
                    log.arrival.append(arrival)
            except Bad as bad:
                self.fault(str(bad), at)
            if (moment, sender, number) <= last:
                self.fault('packets in the order of moment, sender and number', at)
            last = moment, sender, number
            log.at.append(moment)
            log.sender.append(sender)
            log.number.append(number)
            log.value.append(value)
            log.first.append(len(log.to))
        self.fault("a packet, or 'left' and a number", len(self.rows))

    def copies(self, at: int, words: list[str], moment: int, sender: int) -> Iterator[tuple[int, int]]:
        """The receivers and the arrivals of a packet's copies."""
        heard = -1
        for word in words:
            name, _, after = word.partition('@')
            to, arrival = self.senders[name], LOST
            if to <= heard or to == sender:
                self.fault('receivers in rising order, without the sender', at)
            if after != 'lost' and (arrival := self.arrivals[after]) <= moment:
                self.fault('arrivals after moment %d' % moment, at)
            heard = to
            yield to, arrival

    def read_left(self) -> int:
        words = self.rows[self.at].split(' ')
        try:
            if len(words) != 2:
                raise Bad("'left' and a number")
            left = self.numbers[words[1]]
        except Bad as bad:
            self.fault(str(bad))
        self.at += 1
        if self.at == len(self.rows):
            self.fault("a line end after 'left'")
        if self.at != len(self.rows) - 1 or self.rows[-1]:
            self.fault('nothing more')
        return left


def read(text: str) -> Found:
    """Reads a report; any other text raises a `ReportFault`."""
    return _Reader(text).read()
