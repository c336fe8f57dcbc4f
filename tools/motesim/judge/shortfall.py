"""The lines that a report lacks for claims: how many are wanted, and how many of them are missing."""
from __future__ import annotations

from collections.abc import Iterable
from typing import NamedTuple

from motesim.judge.claim_words import Case, Claim
from motesim.judge.finder import Finder


class Shortfall(NamedTuple):
    """The number of wanted lines, and of those that are missing."""
    missing: int = 0
    wanted: int = 0


def shortfall_of(finder: Finder, claims: Iterable[Claim]) -> Shortfall:
    """The wanted and the missing lines of claims. If only some of a claim's cases must hold, those count that want the
    fewest lines, and those that lack the fewest."""
    missing = wanted = 0
    for it in claims:
        missing += sum(sorted(_missing(case, finder) for case in it.cases)[:it.limits[0]])
        wanted += sum(sorted(sum(test.least for test in case.tests) for case in it.cases)[:it.limits[0]])
    return Shortfall(missing, wanted)


def _missing(case: Case, finder: Finder) -> int:
    return sum(max(0, test.least - len(finder.lines(test.deed))) for test in case.tests if test.deed and test.least)
