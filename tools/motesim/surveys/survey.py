"""Surveys, which the proved program `motecheck` makes: it runs a scenario with each set of at most so many faults, and
lists for each claim the smallest sets that break it."""
from __future__ import annotations

import re
from collections.abc import Callable, Iterable, Sequence
from itertools import combinations
from typing import NamedTuple

from motesim.judge.verdicts import answers
from motesim.runner import Limits, ProgramFault
from motesim.runner.programs import CHECKER, is_module, program_path
from motesim.surveys.kinds import Kinds, options_of

# The faults of a set, as texts.
Set = tuple[str, ...]
MOST_WORKERS = 16
SET, AND, NOTHING = '  if ', ' and ', 'nothing is broken'
COVERED = re.compile(r'covered: (?:nothing|all sets of at most (?P<size>\d+)(?: of (?P<faults>\d+))? faults)'
                     r'(?P<limit> before the limit)?; runs: (?P<runs>\d+)')


class Bounds(NamedTuple):
    """The bounds of a survey: the most faults in a set; the most runs, or None for no limit."""
    at_most: int = 1
    runs: int | None = None


class Survey(NamedTuple):
    """The answer of a survey.

    sets      for each claim, the sets that break it
    size      all sets of at most so many faults are covered; -1 if none is
    is_whole  whether these are all the sets that were asked for
    faults    the number of single faults, if it doesn't depend on the run
    runs      the number of runs
    said      the line of motecheck about all this
    """
    sets: Sequence[Sequence[Set]]
    size: int
    is_whole: bool
    faults: int | None
    runs: int
    said: str


def survey_of(scenario: bytes, claims: Sequence[str], kinds: Kinds, bounds: Bounds, workers: int, limits: Limits,
              asks_end: Callable[[], bool]) -> Survey:
    """The survey of a scenario with faults of these kinds. Raises a `ProgramFault` if there is none."""
    # (a module has one thread)
    shared = () if is_module(program_path(CHECKER)) else ('--workers=%d' % min(workers, MOST_WORKERS),)
    runs = () if bounds.runs is None else ('--runs=%d' % bounds.runs,)
    return read_survey(answers(scenario, claims, *options_of(kinds), '--at-most=%d' % bounds.at_most, *runs, *shared,
                               limits=limits, asks_end=asks_end))


def read_survey(lines: Sequence[str]) -> Survey:
    """The survey that the lines of motecheck tell."""
    sets, last = list[list[Set]](), COVERED.fullmatch(lines[-1])
    for line in lines[:-1]:
        if not line.startswith(SET):
            sets.append([])
            continue
        found = line.removeprefix(SET)
        sets[-1].append(() if found == NOTHING else tuple(found.split(AND)))
    if last is None:
        raise ProgramFault('the last line of motecheck isn\'t that of a survey: %s' % lines[-1])
    size, faults, runs = int(last['size'] or -1), int(last['faults']) if last['faults'] else None, int(last['runs'])
    return Survey(sets, size, not last['limit'], faults, runs, lines[-1])


def minimal(sets: Iterable[Set]) -> list[Set]:
    """The sets that have no other one within, each once, the smaller ones first."""
    found = dict[frozenset[str], Set]()
    for it in sorted(sets, key=len):
        parts = (frozenset(part) for size in range(len(it) + 1) for part in combinations(it, size))
        if not any(map(found.__contains__, parts)):
            found[frozenset(it)] = it
    return list(found.values())
