"""`motesim.search`: the smallest sets of faults that break the expectations of a scenario."""
from __future__ import annotations

import os
from collections.abc import Sequence
from pathlib import Path

from motesim.api.answers import FaultSet, Searched
from motesim.runner.process import Limits
from motesim.scenario import Scenario
from motesim.scenario.encodings import read_file
from motesim.scenario.refused import check
from motesim.surveys.kinds import kinds_given
from motesim.surveys.searching import LIMITS, Asked, search_of
from motesim.surveys.survey import Bounds


def search(scenario: str | Path | bytes, expectations: Sequence[str] | str, *, links: bool = False,
           silent: bool = False, lost: bool = False, late: Sequence[int] = (), off: Sequence[int] = (),
           restarts: Sequence[int] = (), starts: Sequence[int] = (), at_most: int = 1,
           runs: int | None = None, seconds: float | None = None, limits: Limits = LIMITS,
           workers: int = os.cpu_count() or 1) -> Searched:
    """Searches for faults that break expectations of a scenario, the name of its file or its text in bytes, as
    tools/search does: all sets of at most `at_most` faults of the chosen kinds are tried.

    links    broken links, each in one direction
    silent   silent motes, which no mote hears
    lost     lost packets, each on its way to one mote
    late     packets that reach one mote so many moments later
    off      motes that are off from such a moment on; `restarts` at it; `starts` late, at it
    runs     the most runs, and `seconds` the most seconds; without them, all sets are covered

    Without a kind, links, silent motes and lost packets are tried. Raises a `Fault` if the scenario is refused, or if
    an expectation can't be read.
    """
    name, data = ('scenario', scenario) if isinstance(scenario, bytes) else (str(scenario), read_file(scenario))
    check(name, data)
    kinds = kinds_given({'links': links, 'silent': silent, 'lost': lost, 'late': late, 'off': off,
                         'restarts': restarts, 'starts': starts})
    texts = [expectations] if isinstance(expectations, str) else list(expectations)
    asked = Asked(Scenario.parse(data, name), texts, kinds, Bounds(at_most, runs), seconds)
    found = search_of(asked, workers, limits)
    sets = [FaultSet(it.faults, tuple(it.expectations)) for it in found.found]
    return Searched(sets, tuple(found.broken), tuple(found.holding), tuple(found.unsaid),
                    found.survey.said if found.survey else '', found.ended_by)
