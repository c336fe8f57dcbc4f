"""Finds the line of a report that a question is about: a sentence as in docs/use/EXPECTATIONS.md, or a line by its
number.

If a sentence holds, a line shows it. If an extra line breaks it, the question is about this line. A sentence that
wants a line that doesn't exist has no line: the answer is a `Missing`, for which motesim.causes.miss finds the reasons.
"""
from __future__ import annotations

import re
from dataclasses import dataclass, replace
from functools import cached_property

from motesim.faults import Fault
from motesim.judge.claims import periods
from motesim.judge.finder import IN_TIME, Event, Finder, Row
from motesim.judge.hearing import hearing
from motesim.judge.links import Apart, Span, within
from motesim.judge.reasons import Broken
from motesim.judge.remarks import outcome_never
from motesim.judge.meaning import Copies, Count, Does, Hears, Motes, Or, Packets, Sentence
from motesim.judge.names import names_of
from motesim.judge.sentences import read_sentence
from motesim.judge.verdicts import breaks
from motesim.causes.source import At, Source, Traces

LINE = re.compile(r'\s*(?:(?:mote\s+)?(\d+)\s*:\s*)?(?:line\s+)?(\d+)\s*', re.I)
TEXT = re.compile(r'\s*(?:mote\s+)?(\d+)\s*:\s*(\d+ [a-z]+.*?)\s*', re.I)
NO_LINE = 'the expectation holds, and no line of a trace shows it'


@dataclass(frozen=True)
class Asked:
    """The line that a question is about. `why` has the reason why the question's sentence doesn't hold.

    lost        the motes for which the medium lost copies of the line's packet, if the sentence is about such copies
    medium_row  the line of the medium that the question names, if it does: `where` sent its packet
    is_last     all motes have to fulfil the sentence, and this one is the last that does
    is_answer   the question is an expectation, and not a line
    """
    where: At
    why: str = ''
    lost: tuple[int, ...] = ()
    medium_row: int = 0
    is_last: bool = False
    is_answer: bool = False

    @property
    def holds(self) -> bool:
        return not self.why


@dataclass(frozen=True)
class Missing:
    """A line that a sentence wants and the report doesn't have.

    sentence  the sentence; its `deed` has the patterns of the wanted lines
    motes     the motes that have too few such lines
    span      the moments at which the lines are wanted
    found     the existing lines with these patterns, in chronological order
    remark    the explanation, which names the existing and the wanted lines
    """
    sentence: Does
    motes: tuple[int, ...]
    span: Span
    found: tuple[Event, ...]
    remark: str


class Unasked(Fault):
    """A question that is about no line. `holds` says whether the sentence holds, if that is known."""

    def __init__(self, why: str, holds: bool | None = None):
        super().__init__(why)
        self.holds = holds


def line_asked(traces: Traces, question: str) -> At | None:
    """The line with this number, such as 24:977 or 977, or with this text, such as 24:64 print flood 1."""
    number, text = LINE.fullmatch(question), TEXT.fullmatch(question)
    if number:
        row = int(number[2])
        where = traces.at_row(row)
        last = traces.report.medium_row - 1
        if where is None:
            raise Unasked('line %d is in no trace: the traces have the lines 1 to %d of the report' % (row, last))
        if number[1] and int(number[1]) != where.mote:
            raise Unasked('line %d is in the trace of mote %d, and not of mote %s' % (row, where.mote, number[1]))
        return where
    if text:
        mote = traces.checked(int(text[1]))
        if text[2] not in traces.texts(mote):
            raise Unasked("mote %d has no line '%s'" % (mote, text[2]))
        return At(mote, traces.texts(mote).index(text[2]))
    return None


def needed(count: Count, most: int) -> int:
    """The least number above 0, and up to `most`, that a count admits; 0 if there is none."""
    least = max(1, count.least)
    return least if least <= min(most, most if count.most is None else count.most) else 0


class Asker:
    """Looks for the lines that sentences are about."""

    def __init__(self, source: Source):
        self.source, self.traces = source, source.traces

    @cached_property
    def finder(self) -> Finder:
        return Finder(self.traces.report, self.source.scenario)

    def read(self, question: str) -> Sentence:
        return read_sentence(question, names_of(self.source.scenario))

    def about(self, question: str) -> Asked | Missing:
        """The line that a question is about."""
        packet = self.of_medium(question)
        if packet:
            return packet
        where = line_asked(self.traces, question)
        return Asked(where) if where else self.answer(self.read(question))

    def of_medium(self, question: str) -> Asked | None:
        """The line that sent a packet, if a question is about the packet's line of the medium."""
        number = LINE.fullmatch(question)
        row = int(number[2]) if number and number[1] is None else 0
        sent = self.sent(row)
        return Asked(sent, medium_row=row) if sent else None

    def sent(self, row: int) -> At | None:
        """The line that sent the packet of a line of the medium."""
        packet = self.traces.medium_line(row)
        return self.traces.send_of(packet.sender, packet.number) if packet else None

    def answer(self, it: Sentence) -> Asked | Missing:
        """The line by which a sentence holds or is broken. Raises an `Unasked` if there is none."""
        if isinstance(it, Hears):
            raise self.of_hearing(it)
        if isinstance(it, Or):
            raise Unasked('`or` joins several expectations: ask about one of them')
        if not isinstance(it, (Does, Copies, Packets)) or isinstance(it, Copies) and it.outcome == 'left':
            raise Unasked('this expectation is about no line of a trace')
        broken, = breaks([it], self.finder)
        if broken:
            return self.of_broken(it, broken)
        row = self.shown(it) if isinstance(it, Does) else self.completing(it)
        where = self.line(row)
        if where is None:
            raise Unasked(NO_LINE, True)
        is_last = isinstance(it, Does) and it.motes.kind == 'each' and len(self.finder.chosen(it.motes)) > 1
        return Asked(where, lost=self.losses(where, it), is_last=is_last, is_answer=True)

    def line(self, row: int | None) -> At | None:
        """The line of a trace in a row of the report, or the line that sent the packet of a row of the medium."""
        return None if row is None else self.traces.at_row(row) or self.sent(row)

    def of_broken(self, it: Does | Copies | Packets, broken: Broken) -> Asked | Missing:
        """The line that breaks a sentence, or the lines that it lacks."""
        if isinstance(it, Does) and broken.lacks:
            motes = broken.lacks.motes or self.finder.chosen(it.motes)
            found = tuple(self.finder.done(it.deed.patterns, motes))
            return Missing(replace(it, than=None, relation=None), motes, broken.lacks.span, found, broken.why)
        where = self.line(broken.row)
        if where:
            return Asked(where, broken.why, self.losses(where, it))
        never = outcome_never(it, self.finder) if isinstance(it, Copies) else ''
        raise Unasked('; '.join(filter(None, [broken.why, never])), False)

    def shown(self, it: Does) -> int | None:
        """The row by which a sentence about motes holds: if all motes have to fulfil it, the last of the lines that do;
        otherwise the line of the last mote that is needed. Of several periods, that in the last one."""
        if parts := periods(it):
            return next((row for row in map(self.shown, reversed(parts)) if row is not None), None)
        chosen = self.finder.chosen(it.motes)
        if it.motes.kind == 'together':
            event = self.shown_by(it, chosen)
            return event.row if event else None
        doing = [mote for mote, broken in zip(chosen, breaks(self.each(it), self.finder)) if broken is None]
        events = sorted((one for mote in doing if (one := self.shown_by(it, (mote,)))), key=IN_TIME)
        if it.motes.kind == 'each':
            return events[-1].row if events else None
        count = it.motes.count or (Count('at most', 0) if it.motes.kind == 'no' else Count('at least', 1))
        number = needed(count, len(doing))
        # (a mote without a line has met the sentence from the start)
        left = events[max(number - 1 - len(doing) + len(events), 0):] if number else []
        return left[0].row if left else None

    def shown_by(self, it: Does, motes: tuple[int, ...]) -> Event | None:
        """The line with which a mote, or several together, have done what the sentence says; of several periods, that
        in the last one."""
        events = self.finder.done(it.deed.patterns, motes)
        for span in reversed(self.finder.spans(it.window, motes)):
            inside = [event for event in events if within(event.at, span)]
            if inside:
                least = 1 if it.than else max(it.count.least, 1)
                return inside[-1 if it.deed.way != 'any' else min(least, len(inside)) - 1]
        return None

    def rows(self, it: Copies | Packets) -> list[Row]:
        """The rows of the copies or packets in the time of a sentence; of several periods, those in the last one that
        has some."""
        rows = self.finder.rows_of(it)
        of_parts = ([row for row in rows if within(row.at, span)]
                    for span in reversed(self.finder.spans(it.window, ())))
        return next(filter(None, of_parts), []) if it.window.every else rows

    def completing(self, it: Copies | Packets) -> int | None:
        """The row that completes the number of copies or packets that a sentence wants."""
        rows = self.rows(it)
        number = needed(it.count, len(rows)) if it.count else len(rows)
        return rows[number - 1].row if number else None

    def losses(self, where: At, it: Sentence) -> tuple[int, ...]:
        """The motes for which the medium lost copies of the packet that a line sent."""
        if not isinstance(it, Copies) or it.outcome != 'lost':
            return ()
        packet = self.traces.report.packet(where.mote, self.traces.line(where).number or 0)
        copies = packet.copies if packet else ()
        return tuple(copy.to for copy in copies if copy.at is None and (it.motes is None or copy.to in it.motes))

    def of_hearing(self, it: Hears) -> Unasked:
        """The answer to a sentence about who hears whom, for the first mote that breaks it, or for all of them."""
        scenario, motes = self.source.scenario, sorted(it.motes)
        wrong = [mote for mote in motes if scenario.is_open(it.other, mote) != it.can]
        return Unasked('; '.join(hearing(scenario, mote, it.other) for mote in wrong[:1] or motes), not wrong)

    def each(self, it: Does) -> list[Does]:
        """The same sentence about each mote by itself."""
        return [replace(it, motes=Motes('each', frozenset((mote,)))) for mote in self.finder.chosen(it.motes)]

    def lines(self, it: Sentence) -> list[int]:
        """The rows of all lines of traces that a sentence is about. Raises an `Unasked` if it is about none."""
        try:
            if isinstance(it, Does):
                return [event.row for mote in self.finder.chosen(it.motes)
                        for event in self.finder.lines_of(it, (mote,))]
            if isinstance(it, Packets) or isinstance(it, Copies) and it.outcome != 'left':
                sent = [self.line(row.row) for row in self.finder.rows_of(it)]
                return [self.traces.row(where) for where in sent if where]
        except Apart as apart:
            raise Unasked(str(apart)) from None
        raise Unasked("this expectation isn't about lines of a trace")
