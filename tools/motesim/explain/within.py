"""Runs a scenario within limits. If the run reaches one, the message names the process that does most."""
from __future__ import annotations

import argparse
import re
from collections import Counter
from collections.abc import Callable, Sequence

from motesim.explain.say import does_in_words
from motesim.report import Report
from motesim.runner import LimitMet, Limits, ProgramFault, Runner
from motesim.report.run import Answer

MEGABYTE = 1 << 20
# The limits of runs of the same scenario that end earlier, and the ends of these runs.
TRIED = Limits(4.0, 256 * MEGABYTE, 8 * MEGABYTE)
ENDS = (0, *(4 ** it for it in range(10)))
END = re.compile(rb'^([ \t]*end[ \t]*=[ \t]*)([0-9_]+)', re.M)
# The number of lines in each moment from which a loop without end is likely.
MANY = 20


def limits_of(asked: argparse.Namespace) -> Limits:
    """The limits that the options of a tool name."""
    return Limits(asked.seconds, asked.memory * MEGABYTE, asked.report * MEGABYTE)


def runs_within(name: str, asked: argparse.Namespace, faults: Sequence[str] = ()) -> Callable[[bytes], Answer]:
    """A function that runs a scenario from a file of this name, with these faults, within these limits."""
    limits = limits_of(asked)
    return lambda data: answer_within(name, data, limits, faults)


def answer_within(name: str, data: bytes, limits: Limits, faults: Sequence[str] = ()) -> Answer:
    """The answer to a scenario from a file of this name, run with these faults."""
    try:
        return Runner(limits=limits, faults=faults).answer(data)
    except LimitMet as met:
        raise ProgramFault('%s: the run was ended: %s.%s A larger %s raises the limit' % (
            name, met, busiest(data), met.option)) from None


def busiest(data: bytes, goes_on: Callable[[], bool] = lambda: True) -> str:
    """A sentence about what a run does most, up to an end that is early enough; an empty text if it does nothing so
    often, or if no further run may be tried."""
    end, said = END.search(data), ''
    for early in ENDS:
        if not goes_on():
            return ''
        got = report_until(data, early) if end and early < int(end[2]) else None
        if got is None:
            return said
        said = most_done(got, early)
    return said


def report_until(data: bytes, end: int) -> Report | None:
    """The report of a run that ends earlier; None if it is refused or reaches a limit."""
    try:
        got = Runner(limits=TRIED).answer(END.sub(rb'\g<1>%d' % end, data, 1))
    except LimitMet:
        return None
    return None if got.status else Report.parse(got.report)


def most_done(report: Report, end: int) -> str:
    """What a run does most up to its end: a process, or all motes together. Prints and packets have precedence,
    because a loop that pauses after each print posts as many events as it prints."""
    counts = Counter((it.kind, it.mote, it.process or '') for it in report.lines('print', 'send'))
    posts = Counter(('pause' if it.event == 'continue' else 'post', it.mote, it.process or '')
                    for it in report.lines('post'))
    first, second = ((it.most_common(1) or [(('print', 0, ''), 0)])[0] for it in (counts, posts))
    (kind, mote, process), times = first if 2 * first[1] >= second[1] else second
    packets = sum(number for deed, number in counts.items() if deed[0] == 'send')
    if times < MANY * (end + 1) <= packets:
        kind, (mote, times) = 'storm', max(((deed[1], number) for deed, number in counts.items() if deed[0] == 'send'),
                                           key=lambda it: it[1])
    elif times < MANY * (end + 1):
        return ''
    return does_in_words(kind, mote, process, times, end, packets)
