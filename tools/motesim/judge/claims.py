"""The claims that a sentence means for a scenario, in the text of claims.

A sentence holds if each of its claims does. The scenario gives the hops, the neighbours and the numbers of processes;
the claims are about the report alone.
"""
from __future__ import annotations

from collections.abc import Sequence
from dataclasses import replace

from motesim.faults import Fault
from motesim.judge.claim_words import (
    ALL, Case, Claim, Counted, Deed, Limits, OfNet, Test, each_value, every_line, limited, lines_of, period_text, ratio,
    same_last, set_text, with_values,
)
from motesim.judge.hearing import hearing
from motesim.judge.links import Apart, Links, Span
from motesim.judge.meaning import (
    Copies, Count, Deed as Action, Does, Hears, Lines, MediumLine, Motes, Or, Packets, Part, Pattern, Refused, Relation,
    Sentence, Value, Window)
from motesim.judge.names import processes_of
from motesim.notation.grammar import SYSTEM
from motesim.notation.reader import read_program
from motesim.report import BECAME, FIELDS
from motesim.scenario import Scenario

EVENTS = {'init': 0x81, 'poll': 0x82, 'exit': 0x83, 'continue': 0x85, 'msg': 0x86, 'exited': 0x87, 'timer': 0x88,
          'com': 0x89, 'packet': 0x8a}
FIRST_DECLARED, MOST = 0x8b, (1 << 64) - 1
# The parts of a pattern in their order, and the part that a field of a line is.
PARTS = ('process', 'serial', 'event', 'sender', 'packet', 'value')
PART_OF = {'number': 'packet', 'word': 'value'}
# The sentences about texts, which no claim can say, with the reasons.
OF_TEXT = {Refused: 'it is about a scenario without a report', MediumLine: 'claims have no whole lines of the medium'}


class NoClaim(Fault):
    """A sentence that claims can't say, with the reason."""

    def __init__(self, why: str):
        super().__init__('no claim: ' + why)
        self.why = why


class _Program:
    """The numbers of a program's processes and declared events."""

    def __init__(self, text: str):
        self.processes = processes_of(text)
        self.events = EVENTS | {it.text: FIRST_DECLARED + place for place, it in enumerate(read_program(text).events)}


class Claims:
    """A scenario whose sentences are translated."""

    def __init__(self, scenario: Scenario):
        self.scenario, self.links = scenario, Links(scenario)
        programs = {name: _Program(text) for name, text in scenario.programs.items()}
        self.programs = [programs[it.program] for it in scenario.places]
        # (motes with other names have claims with numbers)
        self.is_named = all(it.processes == self.programs[0].processes for it in self.programs)
        # The motes of the last sentence that have no distance. They have no case, and count as motes that don't do it.
        self.apart: list[int] = []

    def of(self, it: Sentence) -> list[Claim]:
        """The claims that a sentence means. Raises `NoClaim` if claims can't say it."""
        self.apart = []
        if isinstance(it, (MediumLine, Refused)):
            raise NoClaim(OF_TEXT[type(it)])
        return [self.one_of(it)] if isinstance(it, Or) else self.of_part(it)

    def of_part(self, it: Part) -> list[Claim]:
        """The claims of a sentence without `or`."""
        if isinstance(it, Hears):
            # (the scenario decides it: true or false of each run)
            wrong = [mote for mote in sorted(it.motes) if self.links.hears(mote, it.other) != it.can]
            return [Claim((1, None), (), hearing(self.scenario, wrong[0], it.other)) if wrong else
                    Claim((1, 1), (Case(),))]
        if isinstance(it, Does):
            try:
                return [self.does(one) for one in periods(it) or [it]]
            except NoClaim:
                if not (kind := one_by_one(it)):
                    raise
                return [self.does(replace(it, motes=replace(it.motes, kind=kind)))]
        return [Claim((1, 1), (Case(tuple(self.of_net(it))),))]

    def one_of(self, it: Or) -> Claim:
        """At least one of the parts holds: one of the cases of `some mote`, or the case of which all tests are those of
        a part that holds for each of its motes."""
        found, fewer = list[Case](), ''
        for its in map(self.of_part, it.parts):
            fewer = next((claim.fewer for claim in its if claim.fewer), fewer)
            if len(its) == 1 and its[0].limits == (1, None):
                found += its[0].cases
            elif any(claim.limits[0] != claim.limits[1] for claim in its):
                raise NoClaim('a part of an `or` that counts motes in each of several intervals')
            elif all(claim.limits[0] == len(claim.cases) for claim in its):
                found.append(Case(tuple(test for claim in its for case in claim.cases for test in case.tests)))
        return Claim((1, None), tuple(found), fewer)

    # Lines

    def field(self, mote: int, field: str, wanted: str | Value, is_named: bool) -> str | None:
        """The part of a pattern that wants this word or value in a field; None if no line has it. A process has its
        name if `is_named`, and otherwise its number."""
        if isinstance(wanted, Value):
            return set_text(self.links.values(wanted, mote))
        its = self.programs[mote]
        if field == 'process':
            is_known = wanted in SYSTEM or wanted == 'all' or is_named and wanted in its.processes
            return wanted if is_known else str(its.processes.index(wanted)) if wanted in its.processes else None
        if field == 'event':
            return str(its.events[wanted]) if wanted in its.events else None
        return wanted if wanted.isdecimal() and str(int(wanted)) == wanted and int(wanted) <= MOST else None

    def pattern(self, mote: int, words: Pattern, is_named: bool, is_shown: bool) -> str | None:
        """The pattern of a mote's lines; None if no line of the mote can fit. If it `is_shown`, fields have their
        names."""
        kind, fields = str(words[0]), FIELDS[str(words[0])].split()
        for value in words:
            if isinstance(value, Value):
                # (a mote may have no such value, whether or not it has such lines)
                self.links.values(value, mote)
        if len(words) > len(fields) + 1:
            return None
        parts: dict[str, str] = {}
        for field, wanted in zip(fields, words[1:]):
            if wanted is not None:
                shown = wanted.words if is_shown and isinstance(wanted, Value) else ''
                part = shown or self.field(mote, field, wanted, is_named)
                if part is None:
                    return None
                parts[PART_OF.get(field, field)] = part
        return ' '.join([kind, *('%s %s' % (name, parts[name]) for name in PARTS if name in parts)])

    def patterns(self, mote: int, patterns: Sequence[Pattern], is_named: bool, is_shown: bool = False
                 ) -> tuple[str, ...]:
        return tuple(it for it in [self.pattern(mote, words, is_named, is_shown) for words in patterns] if it)

    def deed(self, patterns: Sequence[Pattern], motes: Sequence[int], spans: Sequence[Span]) -> Deed:
        """The lines of motes, each in its span."""
        its = [self.patterns(mote, patterns, self.is_named)[:0 if is_empty(span) else None]
               for mote, span in zip(motes, spans)]
        named = next((self.patterns(mote, patterns, True, True) for mote, own in zip(motes, its) if own), ())
        found = {it for it in its if it} or {()}
        if len(found) > 1:
            raise NoClaim('a claim counts lines of several motes by one pattern, which differs here')
        return Deed(found.pop(), tuple((mote, span) for mote, span, own in zip(motes, spans, its)
                                       if own or len(motes) == 1), tuple(patterns), named)

    # Sentences about motes

    def does(self, it: Does) -> Claim:
        chosen, cases, fewer = it.motes.chosen(self.scenario.motes), list[Case](), ''
        if it.deed.way == 'same':
            # (the others are compared with the first one)
            chosen = chosen[1:] or chosen
        for unit in [chosen] if it.motes.kind == 'together' else [(mote,) for mote in chosen]:
            try:
                cases.append(Case(tuple(self.tests(it, unit))))
            except Apart as apart:
                self.apart += unit
                fewer = fewer or str(apart)
        return Claim(of_motes(it.motes, len(chosen)), tuple(cases), fewer)

    def tests(self, it: Does, motes: tuple[int, ...]) -> list[Test]:
        """The tests of one mote, or of several together."""
        other = it.than or it.relation
        others = motes if other is None or other.motes is None else other.motes.chosen(self.scenario.motes)
        event = (other.deed if other else None) or it.deed
        found = list[Test]()
        for place, span in enumerate(self.links.spans(it.window, motes[0])):
            deed = self.deed(it.deed.patterns, motes, [span] * len(motes))
            if it.deed.way == 'same':
                first = it.motes.chosen(self.scenario.motes)[0]
                its = self.links.spans(it.window, first)[place]
                found.append(same_last(deed, self.deed(it.deed.patterns, [first], [its])))
            elif it.than:
                window = it.than.window
                spans = [self.links.spans(window, mote)[0] if window else span for mote in others]
                than = self.deed(event.patterns, others, spans)
                found += [each_value(than, of_count(it.count), deed)] if it.than.is_each else compared(
                    it.count, lines_of(deed), lines_of(than))
            elif it.relation and it.relation.kind == 'each':
                lines = self.deed(it.deed.patterns, motes, [ALL] * len(motes))
                found += self.answered(it.relation, lines, event, others, span)
            elif it.relation:
                found += ordered(it, it.relation, deed, self.deed(event.patterns, others, [ALL] * len(others)))
            else:
                found.append(self.counted(it, deed, motes))
        return found

    def counted(self, it: Does, deed: Deed, motes: tuple[int, ...]) -> Test:
        """The number of lines, or their values."""
        own = it.deed
        if own.way == 'any':
            return limited(of_count(it.count), lines_of(deed))
        values = [self.links.values(own.value, motes[0])] if own.value else [{value} for value in own.values]
        words = own.value.words if own.value else ''
        return with_values({'finally': 'last', 'set': 'set'}.get(own.way, 'values'), deed, values, words)

    def answered(self, it: Relation, lines: Deed, event: Action, motes: Sequence[int], span: Span) -> list[Test]:
        """Each of the events has a line soon after it, except those near the end; and one of the events has."""
        last = self.scenario.end - it.moments
        early = (span[0], last if span[1] is None else min(span[1], last))
        order = near(it.moments, 'before') + ' some line'
        found = [every_line(self.deed(event.patterns, motes, [early] * len(motes)), order, lines)]
        events = self.deed(event.patterns, motes, [span] * len(motes))
        return found * (early[0] <= early[1]) + [limited((1, None), lines_of(events, order, lines))]

    # Sentences about the net

    def of_net(self, it: Sentence) -> list[Test]:
        if isinstance(it, Lines):
            what = Counted('line in the report', 'lines in the report', of_net=OfNet('lines'))
            return [limited(of_count(it.count), what)]
        assert isinstance(it, (Copies, Packets))
        if it.count is None:
            return [self.every_copy(it.motes)]
        if isinstance(it, Copies) and it.outcome == 'left':
            what = Counted('copy left at the end', 'copies left at the end', of_net=OfNet('left'))
            return [limited(of_count(it.count), what)]
        if isinstance(it, Copies) and it.outcome != 'lost':
            return self.lines_in(it.count, it.window, BECAME[it.outcome], it.motes)
        if it.window.root is not None:
            # (a packet is a line of its sender)
            return self.lines_in(it.count, it.window, 'send', None)
        motes = it.motes if isinstance(it, Copies) else None
        form = '%s' + to_motes(motes) + ' sent%s and lost by the medium' if isinstance(it, Copies) else '%s sent%s'
        one, many, kind = ('copy', 'copies', 'lost') if isinstance(it, Copies) else ('packet', 'packets', 'packets')
        found = [(span, period_text(span)) for span in self.links.spans(it.window, 0)]
        limits = of_count(it.count)
        return [limited(limits, Counted(form % (one, when), form % (many, when), of_net=OfNet(kind, span, motes)))
                for span, when in found]

    def lines_in(self, count: Count, window: Window, kind: str, motes_of: frozenset[int] | None) -> list[Test]:
        """So many copies or packets are lines of this kind. The interval may depend on the mote."""
        apart, spans = list[int](), {}
        for mote in Motes('together', motes_of).chosen(self.scenario.motes):
            try:
                spans[mote] = self.links.spans(window, mote)
            except Apart:
                apart.append(mote)
        found = list[Test]()
        for part in range(len(self.links.spans(window, window.root or 0))):
            deed = self.deed([(kind,)], list(spans), [its[part] for its in spans.values()])
            found.append(limited(of_count(count), lines_of(deed)))
        never = [limited((0, 0), lines_of(self.deed([(kind,)], apart, [ALL] * len(apart))))] if apart else []
        return found + never

    def every_copy(self, to: frozenset[int] | None) -> Test:
        """Each copy that the medium lost, or that was due by the end, has a line `recv`."""
        form = '%s' + '%s lost by the medium or due by %d' % (to_motes(to), self.scenario.end)
        due = Counted(form % 'copy', form % 'copies', of_net=OfNet('due', to=to))
        motes = Motes('together', to).chosen(self.scenario.motes)
        return ratio(due, 1, lines_of(self.deed([(BECAME['received'],)], motes, [ALL] * len(motes))), 1, False, True)


def periods(it: Does) -> list[Does]:
    """The sentences about one period each that a sentence with `in each` means, if it is about a number of motes, such
    as `no mote` or `exactly 1 mote`. For other sentences, the list is empty: a mote by itself can check all periods."""
    begin, end, every = it.window.begin, it.window.end, it.window.every
    if not every or end is None or it.motes.kind in ('each', 'together'):
        return []
    return [replace(it, window=Window(at, min(at + every - 1, end))) for at in range(begin, end + 1, every)]


def one_by_one(it: Does) -> str:
    """How a sentence about the lines of motes `together` is one about each of them: some has a line, or each has none.
    Empty if it isn't."""
    if it.motes.kind != 'together' or it.deed.way != 'any' or it.than or it.relation:
        return ''
    limits = of_count(it.count)
    return 'each' if limits == (0, 0) else 'some' if limits == (1, None) and not it.window.every else ''


def is_empty(span: Span) -> bool:
    return span[1] is not None and span[1] < span[0]


def to_motes(motes: frozenset[int] | None) -> str:
    return '' if motes is None else ' to mote%s %s' % ('s' * (len(motes) > 1), set_text(motes))


def near(moments: int, where: str) -> str:
    return ' within %d moment%s %s' % (moments, 's' * (moments != 1), where)


def of_count(count: Count) -> Limits:
    """The limits of a number."""
    return count.least, count.most


def of_motes(motes: Motes, number: int) -> Limits:
    """The limits of the number of motes that do what a sentence says; `number` is that of all its motes."""
    if motes.kind in ('each', 'together'):
        number = 1 if motes.kind == 'together' else number
        return number, number
    if motes.kind != 'count':
        return (0, 0) if motes.kind == 'no' else (1, None)
    assert motes.count
    return of_count(motes.count)


def compared(count: Count, one: Counted, two: Counted) -> list[Test]:
    """So many times as many things as others."""
    at_least = ratio(two, count.number, one, 1, count.compare == 'more than', True)
    at_most = ratio(one, 1, two, count.number, False, False)
    return [at_least] * (count.compare != 'at most') + [at_most] * (count.compare in ('at most', 'exactly'))


def ordered(it: Does, relation: Relation, deed: Deed, event: Deed) -> list[Test]:
    """So many lines have the order; or there are lines, and all have it."""
    if relation.kind == 'before':
        order = ' before every line'
    else:
        order = (' after' if relation.kind == 'after' else near(relation.moments, 'after')) + ' some line'
    if it.is_counted:
        return [limited(of_count(it.count), lines_of(deed, order, event))]
    return [limited(of_count(it.count), lines_of(deed)), every_line(deed, order, event)]
