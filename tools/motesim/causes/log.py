"""Shows the lines of all motes in one chronological log: docs/use/DEBUGGING.md."""
from __future__ import annotations

import argparse
import json
import re
import sys
from collections import Counter
from collections.abc import Iterable, Iterator, Sequence
from itertools import chain
from typing import NamedTuple

from motesim.faults import Fault
from motesim.judge.links import Span, within
from motesim.report import FIELDS, Report
from motesim.report.columns import CODES, KINDS
from motesim.scenario.fault_text import faults_asked
from motesim.scenario.fields import Field, of_line
from motesim.causes.question import Asker
from motesim.causes.source import Source, read_with_fields, source_of

# The kinds of lines with a value, or with an event's word.
VALUED = {CODES[kind] for kind, fields in FIELDS.items() if {'value', 'word'} & {*fields.split()}}
# A line of the log: its moment, its mote, its number in the report, and its words after the moment.
Row = tuple[int, int, int, str]


class Filter(NamedTuple):
    """The conditions that a line has to meet to be shown."""
    motes: frozenset[int] | None = None
    kinds: tuple[str, ...] = KINDS
    value: int | None = None
    span: Span = (0, None)

    def lines(self, report: Report) -> list[int]:
        """The lines that it leaves, by their indices, in the order of moments, and at a moment mote after mote."""
        trace = report.trace
        found: Iterable[int] = range(len(trace))
        if self.motes is not None:
            found = chain.from_iterable(range(*trace.starts[it:it + 2]) for it in sorted(self.motes))
        if self.kinds != KINDS:
            codes = {CODES[it] for it in self.kinds}
            found = [it for it in found if trace.kind[it] in codes]
        if self.value is not None:
            found = [it for it in found if trace.value[it] == self.value and trace.kind[it] in VALUED]
        if self.span != (0, None):
            found = [it for it in found if within(trace.at[it], self.span)]
        return sorted(found, key=trace.at.__getitem__)


def rows_of(report: Report, lines: Sequence[int]) -> Iterator[Row]:
    """Lines of a report, by their indices."""
    texts = list(report.rows())
    motes = list(map(report.trace.mote.__getitem__, lines))
    # (a line has the heads of its own mote and of all earlier ones before it)
    rows = [line + mote + 2 for line, mote in zip(lines, motes)]
    return zip(map(report.trace.at.__getitem__, lines), motes, rows, (texts[it - 1].partition(' ')[2] for it in rows))


def of_sentence(source: Source, sentence: str, it: Filter) -> list[int]:
    """Those lines of a filter's result that a sentence is about."""
    asker, report = Asker(source), source.traces.report
    wanted = set(asker.lines(asker.read(sentence)))
    return [line for line in it.lines(report) if line + report.trace.mote[line] + 2 in wanted]


def sums(report: Report, lines: Sequence[int]) -> str:
    """One line with the number of lines of each kind."""
    counts = Counter(map(report.trace.kind.__getitem__, lines))
    shown = ', '.join('%s %d' % (kind, counts[CODES[kind]]) for kind in FIELDS if counts[CODES[kind]])
    return '%d of %d lines%s' % (len(lines), len(report.trace), ': ' + shown if shown else '')


def shown(rows: Iterable[Row], report: Report, form: str, fields: Sequence[Field] = ()) -> Iterator[str]:
    """Lines as text, with the fields of values, for a spreadsheet, or for programs."""
    if form == 'csv':
        yield 'moment,mote,line,what\n'
        yield from map('%d,%d,%d,%s\n'.__mod__, rows)
    elif form == 'json':
        for row in rows:
            yield json.dumps(dict(zip(('at', 'mote', 'line', 'words'), row))) + '\n'
    else:
        width = max(4, len(str(report.medium_row)))
        yield 'moment mote %s\n' % 'line'.rjust(width)
        if fields:
            rows = ((at, mote, row, words + of_line(fields, words)) for at, mote, row, words in rows)
        yield from map(('%%6d %%4d %%%dd  %%s\n' % width).__mod__, rows)


def numbers_of(text: str, most: int, what: str) -> frozenset[int]:
    """The numbers of a list such as 3,5-7."""
    found: set[int] = set()
    for part in text.split(','):
        it = re.fullmatch(r'(\d{1,9})(?:-(\d{1,9}))?', part.strip())
        if not it or int(it[1]) > int(it[2] or it[1]) or int(it[2] or it[1]) > most:
            raise Fault("%s: '%s' is not a list of numbers from 0 to %d, as 3 or 3,5-7" % (what, text, most))
        found.update(range(int(it[1]), int(it[2] or it[1]) + 1))
    return frozenset(found)


def kinds_of(text: str | None) -> tuple[str, ...]:
    if text is None:
        return KINDS
    kinds = tuple(it.strip() for it in text.split(','))
    for kind in kinds:
        if kind not in FIELDS:
            raise Fault("--kind: there are no lines '%s'; the kinds are %s" % (kind, ', '.join(FIELDS)))
    return kinds


def status_of(asked: argparse.Namespace) -> int:
    """The work of tools/log; returns the status."""
    kinds = kinds_of(asked.kind)
    run = read_with_fields(asked.file, asked.scenario, faults_asked(asked))
    report = run.report
    motes = numbers_of(asked.mote, len(report.motes) - 1, '--mote') if asked.mote is not None else None
    wanted = Filter(motes, kinds, asked.value, (asked.first, asked.last))
    if asked.sentence is not None and run.scenario is None:
        raise Fault('an expectation needs the scenario of the report: --scenario FILE')
    lines = wanted.lines(report) if asked.sentence is None else of_sentence(source_of(run), asked.sentence, wanted)
    form = 'csv' if asked.csv else 'json' if asked.json else 'text'
    sys.stdout.writelines(shown(rows_of(report, lines), report, form, run.scenario.fields if run.scenario else ()))
    if form == 'text':
        print(sums(report, lines))
    return 0
