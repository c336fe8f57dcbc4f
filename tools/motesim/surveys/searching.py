"""A search: the smallest sets of faults that break each expectation of a scenario.

    found = search_of(Asked(scenario, texts, kinds, Bounds(at_most=2)))

It prints nothing, and writes no file. `motecheck` surveys all sets of one fault, then all sets of up to two, and so on;
so a search that is ended early has covered the sets of a smaller size.
"""
from __future__ import annotations

import os
import time
from collections.abc import Callable, Sequence
from dataclasses import dataclass, field
from typing import NamedTuple

from motesim.faults import Fault
from motesim.judge.claim_words import Claim
from motesim.judge.claims import Claims, NoClaim
from motesim.judge.meaning import Refused
from motesim.judge.names import names_of
from motesim.judge.several import read_all
from motesim.runner import Limits, Stopped, pool
from motesim.scenario import Scenario
from motesim.surveys.cuts import Cut, Cuts
from motesim.surveys.kinds import USUAL, Kinds
from motesim.surveys.measured import Measured, Work, runs_of
from motesim.surveys.survey import Bounds, Set, Survey, minimal, survey_of

# The usual limits of a run with one set of faults.
LIMITS = Limits(10.0, 1 << 30, 16 << 20)
# The most sets whose runs are made again, for the lines that they lack; and the limits of a survey, which has none.
MOST_MEASURED, NO_LIMITS = 200, Limits(float('inf'))


class Asked(NamedTuple):
    """What is asked: a scenario, its expectations, the kinds of faults, and the bounds; the most seconds; and whether
    to try larger sets only until each expectation is broken, which says how many faults it bears."""
    scenario: Scenario
    texts: Sequence[str]
    kinds: Kinds = USUAL
    bounds: Bounds = Bounds()
    seconds: float | None = None
    how_many: bool = False


@dataclass
class Found:
    """A smallest set of faults that breaks expectations, which hold with each smaller set in it.

    measured  its run; None if it wasn't made
    cut       what the set cuts off, so that no protocol can deliver
    file      the file with the faults, if there is one
    """
    faults: Set
    expectations: list[str]
    measured: Measured | None = None
    cut: Cut = field(default_factory=dict)
    file: str = ''

    @property
    def words(self) -> str:
        return '; '.join(self.faults)

    @property
    def missing(self) -> int:
        return self.measured.lacks.missing if self.measured else 0


@dataclass
class Result:
    """What a search has found.

    asked     what was asked
    survey    the last survey; None if the first one was ended
    found     the sets, the worst first, and of equally bad ones the smaller ones
    broken    the expectations that are broken without a fault, which are left out
    unsaid    the expectations that claims can't say, with the reasons, which are left out too
    wanted    the others
    holding   those of them that no covered set breaks
    ended_by  why not all sets are covered; an empty text if they are
    """
    asked: Asked
    survey: Survey | None
    found: list[Found]
    broken: list[str]
    unsaid: dict[str, str]
    wanted: list[str]
    holding: list[str]
    ended_by: str
    seconds: float

    @property
    def covers(self) -> int:
        """All sets of at most so many faults are covered; -1 if none is."""
        return self.survey.size if self.survey else -1

    @property
    def runs(self) -> int:
        return self.survey.runs if self.survey else 0

    def least(self, expectation: str) -> Found | None:
        """One of the smallest sets that break an expectation."""
        its = sorted((it for it in self.found if expectation in it.expectations), key=lambda it: len(it.faults))
        return its[0] if its else None


Shown = Callable[[int, Survey | None, float], None]


def search_of(asked: Asked, workers: int = os.cpu_count() or 1, limits: Limits = LIMITS,
              asks_end: Callable[[], bool] = lambda: False,
              shown: Shown = lambda size, survey, seconds: None) -> Result:
    """Searches until all sets are covered, a limit is reached, or `asks_end()` is true. Meanwhile, `shown` is told the
    present size, the last survey, and the seconds. Raises a `Fault` if there is nothing to search for."""
    begun = time.monotonic()
    claims, unsaid = claims_of(asked)
    if not claims:
        raise Fault('; '.join('%s: no claim: %s' % it for it in unsaid.items())
                    or 'there is no expectation on a report')
    survey, ended_by = surveyed(asked, claims, workers, asks_end,
                                lambda size, last: shown(size, last, time.monotonic() - begun), begun)
    sets = sets_of(claims, survey)
    broken = [text for text, its in sets.items() if its == [()]]
    left = {text: its for text, its in claims.items() if text not in broken}
    found = found_in({text: sets[text] for text in left})
    measure(found, Work(asked.scenario, [it for its in left.values() for it in its], limits), workers, asks_end)
    holding = [text for text in left if not sets[text]] if survey and survey.size >= 0 else []
    found.sort(key=lambda it: (-it.missing, len(it.faults)))
    return Result(asked, survey, found, broken, unsaid, [*left], holding, ended_by, time.monotonic() - begun)


def claims_of(asked: Asked) -> tuple[dict[str, list[Claim]], dict[str, str]]:
    """The claims of each expectation, and the reasons why others have none. Expectations that a scenario is refused are
    about no run."""
    found, unsaid, claims = dict[str, list[Claim]](), dict[str, str](), Claims(asked.scenario)
    for text, it in zip(asked.texts, read_all(list(asked.texts), names_of(asked.scenario))):
        try:
            if not isinstance(it, Refused):
                found[text] = claims.of(it)
        except NoClaim as fault:
            unsaid[text] = fault.why
    return found, unsaid


def surveyed(asked: Asked, claims: dict[str, list[Claim]], workers: int, asks_end: Callable[[], bool],
             shown: Callable[[int, Survey | None], None], begun: float) -> tuple[Survey | None, str]:
    """The survey of the largest sets that are covered, and why no larger ones are, or an empty text."""
    survey, why = None, ''

    def is_over() -> bool:
        nonlocal why
        shown(size, survey)
        if asks_end():
            why = 'it was stopped'
        elif asked.seconds is not None and time.monotonic() - begun >= asked.seconds:
            why = 'the limit of %g seconds was reached' % asked.seconds
        return bool(why)

    for size in range(min(1, asked.bounds.at_most), asked.bounds.at_most + 1):
        try:
            found = survey_of(asked.scenario.text.encode(), [it.text for its in claims.values() for it in its],
                              asked.kinds, asked.bounds._replace(at_most=size), workers, NO_LIMITS, is_over)
        except Stopped:
            return survey, why
        survey = found
        if not survey.is_whole:
            return survey, 'the limit of {:,} runs was reached'.format(asked.bounds.runs)
        if asked.how_many and all(sets_of(claims, survey).values()):
            break
    return survey, ''


def sets_of(claims: dict[str, list[Claim]], survey: Survey | None) -> dict[str, list[Set]]:
    """For each expectation, the smallest sets that break it: one of its claims."""
    listed = iter(survey.sets) if survey else None
    return {text: minimal(it for _ in its for it in next(listed)) if listed else [] for text, its in claims.items()}


def found_in(sets: dict[str, list[Set]]) -> list[Found]:
    """The sets, each with the expectations that it breaks."""
    found = dict[frozenset[str], Found]()
    for text, its in sets.items():
        for it in its:
            found.setdefault(frozenset(it), Found(it, [])).expectations.append(text)
    return sorted(found.values(), key=lambda it: len(it.faults))


def measure(found: list[Found], work: Work, workers: int, asks_end: Callable[[], bool]) -> None:
    """Makes the runs with the sets again, at most so many, and finds out what they lack."""
    by_set, cuts = {it.faults: it for it in found[:MOST_MEASURED]}, Cuts(work.scenario, work.limits)
    with pool(runs_of, work, min(workers, len(by_set)) or 1) as runs:
        for done in runs.results(by_set, asks_end):
            by_set[done.item].measured = done.result
    for it in by_set.values():
        it.cut = cuts.cut_of(it.faults, it.measured.missing) if it.measured else {}
