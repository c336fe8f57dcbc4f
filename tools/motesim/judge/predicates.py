"""Functions in Python that decide what no sentence can say: `python = "checks.py:agree"` in a file of expectations.

    def agree(report):
        last = {mote.lines[-1].value for mote in report.motes}
        return None if len(last) == 1 else 'the motes end with %s' % sorted(last)
"""
from __future__ import annotations

from collections.abc import Callable, Sequence
from pathlib import Path
from typing import NamedTuple

from motesim.faults import Fault
from motesim.own_code import CodeFault, function_of, named, needed_by, sources_of
from motesim.report import Report
from motesim.scenario.encodings import read_file

EXAMPLE = '`python = "checks.py:agree"`'
NOT_PROVED = 'not proved: a function in Python decides it'


class Predicate(NamedTuple):
    """A function that returns the reason why a report isn't right, or nothing; and its words in the file."""
    words: str
    work: Callable[[Report], object]

    def why(self, report: Report) -> str:
        """The reason why a report isn't right; empty if it is."""
        found = self.work(report)
        if found is None or isinstance(found, str):
            return ' '.join((found or '').split())
        raise Fault('`python = "%s"`: the function returns %s, but must return the reason as a text, or None if the '
                    'report is right' % (self.words, type(found).__name__))


def predicates_of(texts: Sequence[str], folder: Path) -> list[Predicate]:
    """The functions that these texts of a file of expectations name; their files are relative to its folder."""
    return [_predicate_of(words, folder) for words in texts]


def _predicate_of(words: str, folder: Path) -> Predicate:
    its = named(words)
    if its is None:
        raise Fault('`python = "%s"` is not the name of a file and of one of its functions, as in %s' % (
            words, EXAMPLE))
    if not (folder / its[0]).is_file():
        raise Fault('`python = "%s"`: there is no file %s: its name is relative to the file of expectations' % (
            words, folder / its[0]))
    try:
        work = function_of(*its, sources_of([its[0]], folder, read_file))
    except CodeFault as fault:
        raise Fault('`python = "%s"`: %s' % (words, fault)) from None
    if needed_by(work) != 1:
        raise Fault('`python = "%s"`: the function needs one argument, the report: `def %s(report):`' % (
            words, its[1]))
    return Predicate(words, work)
