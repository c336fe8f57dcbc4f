"""Makes a scenario that fails an expectation as small as possible, by delta debugging.

One step after another is tried, and each is checked by a run: the report must still break the expectation in the same
way, and must not be longer than the first one. If lines are missing, they must be missing even up to the first end. The
search ends when no step is left, so the result is one-minimal.
"""
from __future__ import annotations

from collections.abc import Callable, Iterator, Sequence
from dataclasses import dataclass, field
from typing import NamedTuple

from motesim.faults import Fault
from motesim.judge.claims import OF_TEXT, Claims
from motesim.judge.finder import Finder
from motesim.judge.reasons import Broken
from motesim.judge.meaning import Sentence
from motesim.judge.names import names_of
from motesim.judge.sentence_fault import SentenceFault
from motesim.judge.sentences import read_sentence
from motesim.judge.verdicts import decided, reason
from motesim.report import Report
from motesim.runner import ProgramFault, Runner
from motesim.scenario.fault_text import NetFault
from motesim.scenario.fields import Field
from motesim.scenario.scenario import Scenario
from motesim.surveys.following import follow, names_motes_in_quotes
from motesim.surveys.net import Net, NetStep, loss_steps, mote_steps, number_steps, program_steps
from motesim.causes.cause import NO_CAUSE, Cause, cause_of
from motesim.causes.source import Source

NAME = 'the scenario'
# The sorts of steps, each of which makes a net smaller.
STEPS: tuple[Callable[[Net], Iterator[NetStep]], ...] = (mote_steps, loss_steps, program_steps, number_steps)


class Case(NamedTuple):
    """A net, the sentence that it breaks, the faults with which it is run (without them the sentence has to hold), and
    sentences that have to hold even with the faults."""
    net: Net
    sentence: str
    faults: tuple[NetFault, ...] = ()
    keeps: tuple[str, ...] = ()


class Way(NamedTuple):
    """The way in which a sentence is broken: the kind of the test, whether lines are missing, whether there are none at
    all, and whether a line of the report shows it. An extra line, or a wrong line, is a different way from a missing
    line."""
    kind: str
    is_few: bool
    has_none: bool
    is_shown: bool


def way_of(broken: Broken) -> Way:
    """The way in which a sentence is broken."""
    lacks = broken.lacks
    return Way(broken.kind, lacks is not None, lacks is not None and not lacks.found, broken.row is not None)


class Seen(NamedTuple):
    """A report with its scenario, and what breaks sentences about it."""
    report: bytes
    scenario: Scenario
    broken: list[Broken | None]


def read_or_none(sentence: str, scenario: Scenario) -> Sentence | None:
    """A sentence, if it can be read with the names of a scenario."""
    try:
        return read_sentence(sentence, names_of(scenario))
    except SentenceFault:
        return None


@dataclass
class Shrinking:
    """A case on its way to a smaller one, with the numbers of its steps so far, and of its runs."""
    program: Runner
    case: Case
    is_over: Callable[[], bool] = lambda: False
    steps: int = 0
    runs: int = 0
    is_whole: bool = True
    last: int = 0
    longest: int | None = None
    # The declared format of packets.
    fields: tuple[Field, ...] = ()
    # The numbers that the present motes had at first.
    motes: list[int] = field(default_factory=list)
    # The last case's report that was judged, and that of the present case.
    judged: Seen | None = None
    now: Seen | None = None

    def __post_init__(self) -> None:
        self.motes = list(range(len(self.case.net.motes)))
        self.first, self.first_end = self.case, self.case.net.end
        self.way = self.way_now(self.case)
        self.longest = self.last
        self.seen_first = self.now = self.judged
        if self.way is None:
            more = (' with these faults, or breaks it even without them' if self.case.faults else
                    ', or breaks an expectation of --keep' * bool(self.case.keeps))
            raise Fault('the scenario does not break `%s`%s' % (self.case.sentence, more))

    def seen(self, text: str, words: Sequence[str], is_first_broken: bool,
             faults: Sequence[NetFault] = ()) -> Seen | None:
        """The report of a text with faults, with what breaks these sentences: the first one is broken, or holds, and
        the others hold. None if they are otherwise, or can't be read; if there is no report; or if it is too long."""
        scenario = self.scenario(text)
        scenario.faults = tuple(it.text for it in faults)
        read = [it for it in (read_or_none(it, scenario) for it in words) if it]
        if len(read) < len(words):
            return None
        self.runs += 1
        is_wanted = [is_first_broken, *[False] * (len(words) - 1)]
        try:
            said = decided(Claims(scenario), text, read, self.program.limits)
            if any(type(it) not in OF_TEXT and bool(its) != wanted for it, its, wanted in zip(read, said, is_wanted)):
                return None
            answer = self.program.with_faults(scenario.faults).answer(text.encode())
        except ProgramFault:
            return None
        self.last = max(self.last, len(answer.report))
        is_long = self.longest is not None and len(answer.report) > self.longest and scenario.end < self.first_end
        if answer.status or is_long:
            return None
        finder = Finder(Report.parse(answer.report), scenario)
        broken = [reason(*its, finder) for its in zip(said, read)]
        return Seen(answer.report, scenario, broken) if [it is not None for it in broken] == is_wanted else None

    def scenario(self, text: str) -> Scenario:
        found = Scenario.parse(text)
        found.fields = self.fields
        return found

    def way_now(self, case: Case) -> Way | None:
        """The way in which a case breaks its sentence, or None if it doesn't, or if it breaks it even without its
        faults."""
        if case.faults and self.seen(case.net.text, [case.sentence], False) is None:
            return None
        found = self.seen_with_faults(case)
        if found is None:
            return None
        broken, self.judged = found.broken[0], found
        assert broken
        if broken.lacks and case.net.end < self.first_end:
            # (the missing lines may only be late)
            later = self.seen_with_faults(case._replace(net=case.net._replace(end=self.first_end), keeps=()))
            late = later.broken[0] if later else None
            return way_of(broken) if late and way_of(late) == way_of(broken) else None
        return way_of(broken)

    def seen_with_faults(self, case: Case) -> Seen | None:
        """The report of a case."""
        try:
            return self.seen(case.net.text, [case.sentence, *case.keeps], True, case.faults)
        except Fault:
            return None

    def after(self, step: NetStep) -> Case | None:
        """The case after a step, or None if the sentence or a fault can't follow it."""
        case = self.case
        if not step.removed:
            return case._replace(net=step.net)
        names = names_of(self.scenario(case.net.text))
        sentences = [follow(it, names, step.removed) for it in (case.sentence, *case.keeps)]
        known = [it for it in sentences if it is not None and not names_motes_in_quotes(it)]
        left = tuple(found for it in case.faults if (found := it.without(step.removed)))
        if len(known) < len(sentences) or len(left) < len(case.faults):
            return None
        return Case(step.net, known[0], left, tuple(known[1:]))

    def run(self) -> None:
        """Takes steps until none is left, or the user ends it."""
        goes_on = True
        while goes_on:
            goes_on = self.drop_faults()
            for steps in STEPS:
                goes_on |= self.take_all(steps)
                if self.is_over():
                    self.is_whole = False
                    return

    def drop_faults(self) -> bool:
        """Removes faults without which the sentence is still broken in the same way; returns whether there is one."""
        before = self.case.faults
        for it in before:
            case = self.case._replace(faults=tuple(one for one in self.case.faults if one != it))
            if case.faults and not self.is_over() and self.way_now(case) == self.way:
                self.case, self.now = case, self.judged
                self.steps += 1
        return self.case.faults != before

    def take_all(self, steps: Callable[[Net], Iterator[NetStep]]) -> bool:
        """Takes steps of one sort, as long as there are any; returns whether one was taken."""
        found = False
        at = 0
        while not self.is_over():
            tried = list(steps(self.case.net))
            for offset in range(len(tried)):
                index = (at + offset) % len(tried)
                if self.is_over():
                    return found
                case = self.after(tried[index])
                if case is not None and self.way_now(case) == self.way:
                    self.case, self.now, found, at = case, self.judged, True, index
                    self.motes = [it for mote, it in enumerate(self.motes) if mote not in tried[index].removed]
                    self.steps += 1
                    break
            else:
                return found
        return found

    def causes(self) -> tuple[Cause, Cause] | None:
        """The causes for which the first and the present scenario break the sentence, if they differ."""
        first, now = (cause_of(Source(NAME, Report.parse(seen.report), seen.scenario), case.sentence)
                      if seen else NO_CAUSE
                      for case, seen in ((self.first, self.seen_first), (self.case, self.now)))
        return (first, now) if now.differs(first) else None

    @property
    def renumbered(self) -> str:
        """The motes that have other numbers than at first, as in `mote 0 was 3, mote 1 was 4`, or an empty text."""
        return ', '.join('mote %d was %d' % it for it in enumerate(self.motes) if it[0] != it[1])
