"""Flows from end to end: which messages of an origin arrived at which motes, how often, and after how many moments.

The user describes the lines that deliver messages, such as `print sink`: each line `print sink V` is a delivery of the
message V at its mote. A message begins with the first packet of that value, at the mote that sends it; or, as in
`print source -> print sink`, with the first line `print source V`. So a program that numbers its messages, for example
by `send ((self * 256) + count)`, has a flow for each origin, even if many motes forward its packets.
"""
from __future__ import annotations

import re
from collections import defaultdict
from collections.abc import Iterable, Iterator
from dataclasses import dataclass, field
from statistics import median
from typing import NamedTuple, Union

from motesim.faults import Fault
from motesim.text import nearest
from motesim.notation.grammar import SYSTEM
from motesim.report import MOST_WORD, Line, Report
from motesim.scenario import Scenario
from motesim.judge.names import names_of, processes_of
from motesim.summary.columns import FLOWS
from motesim.summary.shares import share

Row = dict[str, Union[int, float, str, None]]
NAMES = [*FLOWS]
FORM = re.compile(r'\s*(?:(send|recv)|print\s+([A-Za-z][A-Za-z0-9_]*))'
                  r'(?:\s+([0-9]{1,5})(?:\s+to\s+([0-9]{1,5}))?)?\s*')

# The warnings about messages that have the same value.
SHARED = ('several motes print the same value as a source: motes %d and %d print %d. Messages are matched by value, '
          'so the message of one mote counts as that of the other. Print values that differ for each mote, such as '
          '`print ((self * 256) + n)`, or use another measure')
TWICE = ('a mote prints the same value twice as a source: mote %d prints %d at moment %d and at moment %d. Messages '
         'are matched by value, so these two messages count as one in a flow, and in a `delivery` a duplicate of the '
         'later one counts as the earlier one. Print another value for each message, or use another measure')
# The end of the first of these warnings if the same lines begin messages and deliver them.
SAME_LINES = ('. In this flow, the same lines begin messages and deliver them: the first line with a value begins the '
              'message, and the lines of other motes with this value are its deliveries. So messages of several motes '
              'need different lines for their beginning and their delivery, as in `print source -> print sink`')
# The fault of a flow without a value.
NO_VALUE = ('no flow: %%r: no value from 0 to %d is in its ranges, each of which is from a number to a greater one. A '
            'flow recognises a message by its value, so the line that begins a message and the lines that deliver it '
            'must print or send the same value' % MOST_WORD)


class FlowFault(Fault):
    """A text that doesn't describe a flow."""


class Mark(NamedTuple):
    """Lines that have a message: their kind, the process of prints, and the least and the greatest value."""
    kind: str
    process: str | None = None
    least: int = 0
    most: int = MOST_WORD

    def has(self, line: Line) -> bool:
        is_one = line.kind == self.kind and (self.process is None or line.process == self.process)
        return is_one and line.value is not None and self.least <= line.value <= self.most

    @property
    def values(self) -> str:
        """The values, if not all are meant."""
        if (self.least, self.most) == (0, MOST_WORD):
            return 'V'
        return str(self.least) if self.least == self.most else '%d to %d' % (self.least, self.most)

    def __str__(self) -> str:
        return ' '.join(it for it in (self.kind, self.process, self.values) if it)


@dataclass
class Message:
    """A message: its origin, its moment, and the moments at which it was delivered, by mote."""
    origin: int
    at: int
    delivered: dict[int, list[int]] = field(default_factory=lambda: defaultdict(list))


def read_flow(words: str) -> tuple[Mark, Mark]:
    """The lines at which messages begin and end: `print sink`, `recv`, or `print source -> print sink`."""
    parts = words.split('->')
    marks = [FORM.fullmatch(part) for part in parts]
    if len(parts) > 2 or not all(marks):
        raise FlowFault('no flow: %r. A flow is END or BEGIN -> END; each is `print PROCESS`, `send` or `recv`, '
                        'followed by values such as `1 to 99` if you don\'t mean all' % words)
    found = [Mark(it[1] or 'print', it[2], int(it[3] or 0), int(it[4] or it[3] or MOST_WORD)) for it in marks if it]
    begin, end = (found[0], found[1]) if len(found) == 2 else (Mark('send'), found[0])
    # (a message has one value, so a value that its end excludes doesn't begin one)
    least, most = max(begin.least, end.least), min(begin.most, end.most, MOST_WORD)
    if least > most:
        raise FlowFault(NO_VALUE % words)
    return begin._replace(least=least, most=most), end._replace(least=least, most=most)


def like(process: str, scenario: Scenario | None, known: set[str]) -> str:
    """A hint on the name of a process that doesn't exist: the most likely intended name, or all existing names."""
    own = sorted(known.difference(SYSTEM))
    programs = scenario.programs if scenario else {}
    if process in programs:
        return '; %s is a program, with: %s' % (process, ', '.join(processes_of(programs[process])))
    near = nearest(process, own)
    return '; did you mean %s?' % near if near else '; it has: %s' % ', '.join(own) if own else ''


def check_processes(report: Report, scenario: Scenario, marks: tuple[Mark, Mark]) -> None:
    """Checks that each process of a flow is one of the scenario's, or has lines in the report."""
    for process in {it.process for it in marks if it.process}:
        known = set(names_of(scenario).processes or ())
        if process not in known | report.trace.processes():
            raise FlowFault('no flow: the scenario has no process %s%s' % (
                process, like(process, scenario, known)))


def silent(report: Report, scenario: Scenario | None, marks: tuple[Mark, Mark]) -> str:
    """The reason why a flow has nothing to show: no line begins a message, or none is a delivery."""
    for mark, what in zip(marks, ('no message began', 'nothing was delivered')):
        if not any(map(mark.has, report.lines(mark.kind))):
            known = report.trace.processes() - {'all'}
            more = like(mark.process, scenario, known) if mark.process and mark.process not in known else ''
            return 'the report has no line `%s`, so %s%s' % (mark, what, more)
    return ''


def same_value(sources: Iterable[Line]) -> tuple[Line, Line] | None:
    """Two lines that print the same value as sources of messages: of several motes, or else of one mote."""
    firsts: dict[int, Line] = {}
    again: tuple[Line, Line] | None = None
    for line in sources:
        if line.kind == 'print' and line.value is not None:
            first = firsts.setdefault(line.value, line)
            if first.mote != line.mote:
                return first, line
            if first is not line:
                again = again or (first, line)
    return again


def same_sources(report: Report, begin: Mark) -> tuple[Line, Line] | None:
    """Two lines that begin messages of the same value in a flow."""
    return same_value(it for it in report.lines(begin.kind) if begin.has(it))


def doubts(report: Report, scenario: Scenario | None, words: str) -> Iterator[str]:
    """Yields why a flow has nothing to show, and that prints begin several messages of the same value."""
    marks = begin, end = read_flow(words)
    if reason := silent(report, scenario, marks):
        yield reason
    if its := same_sources(report, begin):
        one, other = its
        if one.mote == other.mote:
            yield TWICE % (one.mote, one.value, one.at, other.at)
        else:
            yield SHARED % (one.mote, other.mote, one.value) + SAME_LINES * (begin == end)


def messages(report: Report, begin: Mark, end: Mark) -> dict[int, Message]:
    """The messages of a flow, by their values. A line from before its message began belongs to none."""
    marked = (it for it in report.lines(begin.kind, end.kind) if begin.has(it) or end.has(it))
    lines = sorted(marked, key=lambda it: it.at)
    found: dict[int, Message] = {}
    for line in lines:
        value = line.value
        if value is not None and begin.has(line) and value not in found:
            found[value] = Message(line.mote, line.at)
    for line in lines:
        message = found.get(line.value) if line.value is not None else None
        if message and end.has(line) and line.at >= message.at and line.mote != message.origin:
            message.delivered[line.mote].append(line.at)
    return found


def flow_rows(report: Report, scenario: Scenario | None, words: str) -> list[Row]:
    """A row for each origin of a flow, and one for the net.

    sent        messages that began there
    delivered   those that reached at least one other mote, and `ratio` is their share
    reached     the number of motes that a message reached, on average
    copies      deliveries in all; `duplicates` are deliveries to a mote that had the message already
    hops        least hops to the motes that were reached, on average, if the scenario is known
    least..     for each message and mote, the moments from its beginning to its first delivery: least, middle, most
    """
    begin, end = read_flow(words)
    if scenario:
        check_processes(report, scenario, (begin, end))
    found = messages(report, begin, end)
    origins = sorted({it.origin for it in found.values()})
    rows = [_row(origin, [it for it in found.values() if it.origin == origin], scenario) for origin in origins]
    return rows + [_row('net', list(found.values()), scenario)]


def _row(origin: int | str, its: list[Message], scenario: Scenario | None) -> Row:
    delivered = [it for it in its if it.delivered]
    pairs = [(it, mote, moments) for it in its for mote, moments in it.delivered.items()]
    delays = sorted(moments[0] - it.at for it, _, moments in pairs)
    far = {origin: scenario.hops_from(origin) for origin in {it.origin for it in its}} if scenario else {}
    hops = [far[it.origin][mote] for it, mote, _ in pairs if scenario and mote in far[it.origin]]
    copies = sum(len(moments) for _, _, moments in pairs)
    return {
        'origin': origin, 'sent': len(its), 'delivered': len(delivered),
        'ratio': share(len(delivered), len(its)),
        'reached': share(len(pairs), len(its)),
        'copies': copies, 'duplicates': copies - len(pairs),
        'hops': share(sum(hops), len(hops)),
        'least': delays[0] if delays else None, 'middle': median(delays) if delays else None,
        'most': delays[-1] if delays else None,
    }
