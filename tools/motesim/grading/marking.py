"""Marks one solution: which sentences hold for it, in each net, within limits."""
from __future__ import annotations

import re
from collections.abc import Sequence
from dataclasses import dataclass, replace
from pathlib import Path

from motesim.explain.explanation import explanation, of_program_file, tables_or_none
from motesim.explain.within import busiest
from motesim.faults import Fault, tried
from motesim.grading.entries import Entry, data_of, decoded
from motesim.grading.marks import LONGEST_WHY, Mark, Marks, MarksInNet, over_nets, spread, unmarked
from motesim.grading.nets import Net, program_of
from motesim.judge.expectations import REFUSED, Part, by_python, known_of, of_report, refused
from motesim.judge.finder import Finder
from motesim.judge.predicates import Predicate
from motesim.judge.sentences import lacking
from motesim.judge.several import read_all, UnknownSentence
from motesim.notation.reader import find_fault as find_program_fault
from motesim.report import Report
from motesim.runner import LimitMet, Limits, Runner
from motesim.report.run import Answer, Run
from motesim.scenario import Scenario
from motesim.scenario.faults import find_fault
from motesim.scenario.in_programs import ScenarioFile
from motesim.text import folded
from motesim.timeline.html import write_page
from motesim.timeline.note import Note, note_of
from motesim.toml import MARK

# The most broken sentences of which a page has the reasons, besides the first one.
MOST_OTHERS = 3
# Reports longer than this have no timeline.
MOST_SHOWN = 4_000_000
TOO_LONG = ('no page of this run: its report has {:,} bytes, and a page shows at most {:,}; with a smaller `end` in '
            'the scenario or net it is shorter, and tools/expect shows the lines without a page')
# Characters that the name of a page can't have: all but letters, digits and two others; and a dot at its beginning.
UNSAFE = re.compile(r'[^A-Za-z0-9.-]|^\.')
LONGEST_NAME = 80
# The most lines of an error that are shown.
MOST_LINES = 60


class Ended(Fault):
    """The run of a solution reached one of its own limits."""


@dataclass(frozen=True)
class Task:
    """The parts that all solutions have in common: the sentences, the nets (if there are none, each solution has its
    own), the limits, the folder of the pages of runs, and the functions in Python that the expectations name."""
    part: Part
    nets: tuple[Net, ...]
    limits: Limits
    pictures: Path | None = None
    predicates: tuple[Predicate, ...] = ()

    def of(self, numbered: tuple[int, Entry]) -> Marks:
        """The marks of an entry."""
        number, entry = numbered
        if entry.why:
            return Marks(entry.name, why=entry.why, is_solution=entry.is_solution)
        if entry.path.suffix == '.mote' and not self.nets:
            return Marks(entry.name, why='a program needs a net: name one with --net', is_open=True)
        try:
            data = data_of(entry)
        except Fault as fault:
            return Marks(entry.name, why=str(fault))
        return tried(lambda: self.of_data(number, entry, data),
                     lambda words: Marks(entry.name, why='not graded: ' + words, is_open=True))

    def of_data(self, number: int, entry: Entry, data: bytes) -> Marks:
        """The marks of an entry that has these bytes."""
        try:
            text = decoded(data)
        except Fault as fault:
            return Marks(entry.name, why=str(fault))
        try:
            found = self.in_nets(entry, text)
        except LimitMet as fault:
            return unmarked(entry.name, '%s, though the program had used less processor time than it may' % fault)
        except Ended as fault:
            return Marks(entry.name, why=str(fault))
        except Fault as fault:
            why = fault.which if isinstance(fault, UnknownSentence) else str(fault)
            return Marks(entry.name, why=why, fix=self.fix(entry, data))
        marks = self.together(entry.name, found)
        # (a file whose programs are expected to be refused keeps its marks)
        if any(its.is_refused for its in found):
            return replace(marks, fix=self.fix(entry, data))
        return self.with_run(number, marks, found)

    def in_nets(self, entry: Entry, text: str) -> list[MarksInNet]:
        """The marks of a solution in each net; without nets, in its own."""
        # (messages name lines by the solution's file; the name of an anonymous solution has the same ending)
        file = ScenarioFile(entry.name.removesuffix(entry.path.suffix).rpartition('/')[2] + entry.path.suffix, text)
        if not self.nets:
            return [self.in_net(text, file)]
        return [self.in_net(net.with_program(program_of(text, entry.path.name, net.program)), file)
                ._replace(net=net.name, is_hidden=net.is_hidden) for net in self.nets]

    def in_net(self, text: str, file: ScenarioFile) -> MarksInNet:
        """The marks of a scenario. `file` is the solution's file."""
        known, names = known_of(text)
        lacks = [lacking(it, names) for it in self.part.sentences]
        part = replace(self.part, sentences=[it for it, lack in zip(self.part.sentences, lacks) if not lack])
        sentences = read_all(part.sentences, names)
        got = self.answer(text.encode())
        if got.status:
            verdicts = refused(part, sentences, got)
            is_held = verdicts and all(it.holds for it in verdicts)
            why = '' if is_held else verdicts[0].more[0] if verdicts else REFUSED
            held = [Mark(it.sentence, it.holds) for it in verdicts]
            return MarksInNet(spread(held, self.part.sentences, lacks), lacks, why, is_refused=True)
        scenario = known or Scenario.parse(text)
        report = Report.parse(got.report)
        verdicts = of_report(part, sentences, Finder(report, scenario), self.limits)
        verdicts += by_python(self.predicates, report)
        held = [Mark(it.sentence, it.holds, (), tuple(it.more), remark=it.remark, broken=it.broken) for it in verdicts]
        marks = [*spread(held, self.part.sentences, lacks), *held[len(sentences):]]
        return MarksInNet(marks, lacks, run=Run('', report, scenario, file) if len(got.report) <= MOST_SHOWN else None,
                          bytes=len(got.report))

    def answer(self, scenario: bytes) -> Answer:
        """The answer of `motesim`, within the limits. The error at a limit says what the run does most often."""
        try:
            return Runner(limits=self.limits).answer(scenario)
        except LimitMet as fault:
            if fault.limit == 'clock':
                raise
            does = busiest(scenario)
            raise Ended('the run was ended: %s%s%s' % (fault, '.' * bool(does), does.rstrip('.'))) from None

    def together(self, name: str, found: Sequence[MarksInNet]) -> Marks:
        """The marks over all nets: a sentence holds if it holds in each."""
        why = ' '.join(next((its.why for its in found if its.why), '').split())[:LONGEST_WHY]
        lacks = [next((it for it in each if it), '') for each in zip(*(its.lacks for its in found))]
        return Marks(name, over_nets(found, self.part.required), why, tuple(lacks))

    def with_run(self, number: int, marks: Marks, found: Sequence[MarksInNet]) -> Marks:
        """The marks of a solution that runs, with what its run shows about the first sentence that fails."""
        index, net = first_shown(marks, found)
        if net is None:
            return marks
        picture, no_page = self.picture(number, marks, index, net)
        return replace(marks, picture=picture, pictured=index if picture else None, no_page=no_page)

    def fix(self, entry: Entry, data: bytes) -> tuple[str, ...]:
        """The place of the error in a solution, and its correction, as tools/explain shows them."""
        return tried(lambda: self.correction(entry, data), lambda words: ('There is no correction here: %s' % words,))

    def correction(self, entry: Entry, data: bytes) -> tuple[str, ...]:
        """The place of the error in a solution, and its correction, if the tool itself has no error."""
        text = data.decode('utf-8', 'replace').removeprefix(MARK)
        if entry.path.suffix == '.mote':
            error = find_program_fault(text) if text else None
            lines = of_program_file(entry.name, text, error) if error else []
        else:
            fault = find_fault(data) if data else None
            if self.nets and fault and not fault.line and not fault.program:
                # (nothing but the program is taken from it, so no other key matters)
                lines = fix_of_program(entry.name, text, self.nets[0].program)
            else:
                lines = explanation(entry.name, data, 'motesim: ' + fault.message) if fault else []
        return tuple(line[:LONGEST_WHY] for line in folded(lines)[:MOST_LINES])

    def picture(self, number: int, marks: Marks, index: int, its: MarksInNet) -> tuple[str, str]:
        """Writes a page with the timeline of a sentence that fails in a net. Returns the name of the page, or the
        reason why there is none."""
        if self.pictures is None:
            return '', ''
        if its.run is None:
            return '', TOO_LONG.format(its.bytes, MOST_SHOWN)
        name = page_name(number, marks.name, its.net)
        run = its.run._replace(name=marks.name + (' in %s' % its.net if its.net else ''))
        others = [at for at, it in enumerate(its.marks) if not it.holds and at != index][:MOST_OTHERS]
        note = note_in(its.run, its, index)._replace(others=tuple(note_in(its.run, its, at) for at in others))
        write_page(self.pictures / name, '%s: %s' % (marks.name, its.marks[index].sentence), [run], note=note)
        return name, ''


def note_in(run: Run, its: MarksInNet, index: int) -> Note:
    """The note about a sentence that fails in the run of a net."""
    mark = its.marks[index]
    return note_of(run, mark.sentence, mark.broken, mark.more)


def first_shown(marks: Marks, found: Sequence[MarksInNet]) -> tuple[int, MarksInNet | None]:
    """The index of the first sentence that fails in a net that isn't hidden, and the first such net."""
    for index, mark in enumerate(marks.marks):
        for its in found:
            if not mark.holds and not its.marks[index].holds and not its.is_hidden:
                return index, its
    return 0, None


def page_name(number: int, solution: str, net: str) -> str:
    """The name of the page of a run, by its solution and its net.

    Names that can't be part of a file's name unchanged get the number of the solution, so that no two are the same.
    """
    plain = UNSAFE.sub('_', solution)[:LONGEST_NAME]
    return '%s%s%s.html' % (plain, '' if plain == solution else '_%d' % number,
                            '_in_' + UNSAFE.sub('_', net)[:LONGEST_NAME] if net else '')


def fix_of_program(name: str, text: str, wanted: str) -> list[str]:
    """The place of the error in the program that is taken from a scenario, even if the scenario lacks something
    else."""
    programs = (tables_or_none(text) or {}).get('programs')
    if type(programs) is not dict or not programs:
        return []
    its = wanted if wanted in programs else next(iter(programs))
    error = find_program_fault(programs[its]) if type(programs[its]) is str else None
    return of_program_file('%s, program %s' % (name, its), programs[its], error) if error else []
