"""The run with a set of faults: the lines that it lacks, and when it sends the packets that the faults name."""
from __future__ import annotations

from collections.abc import Callable, Sequence
from typing import NamedTuple

from motesim.judge.claim_words import Claim, Deed
from motesim.judge.finder import Finder
from motesim.judge.shortfall import Shortfall, shortfall_of
from motesim.report import Report
from motesim.runner import Limits, Runner
from motesim.scenario import Scenario
from motesim.scenario.fault_text import read_fault
from motesim.surveys.cuts import broken_by
from motesim.surveys.survey import Set


class Work(NamedTuple):
    """What all runs of a search share. The claims are those that hold without a fault."""
    scenario: Scenario
    claims: Sequence[Claim]
    limits: Limits


class Measured(NamedTuple):
    """A run with faults.

    lacks    the number of lines that the claims want, and of those that it lacks
    missing  the deeds that have too few lines, if a fault breaks links
    moments  for each fault that names a packet, when it is sent; otherwise None
    """
    lacks: Shortfall = Shortfall()
    missing: Sequence[Deed] = ()
    moments: Sequence[int | None] = ()


def runs_of(work: Work) -> Callable[[Set], Measured]:
    """The function that makes the run with a set of faults."""
    def run(faults: Set) -> Measured:
        report = Report.parse(Runner(limits=work.limits, faults=faults).report(work.scenario.text.encode()))
        finder = Finder(report, work.scenario)
        tests = (test for claim in work.claims for case in claim.cases for test in case.tests)
        missing = [it.deed for it in tests if it.deed and it.least > len(finder.lines(it.deed))] if broken_by(
            faults, work.scenario) else []
        return Measured(shortfall_of(finder, work.claims), missing, [moment_of(it, report) for it in faults])
    return run


def moment_of(text: str, report: Report) -> int | None:
    """The moment at which the packet that a fault names is sent; None if it names none that is sent."""
    fault = read_fault(text)
    if fault is None or 'PACKET' not in fault.numbers:
        return None
    moments, number = report.trace.moments(fault.numbers['FROM'], 'send'), fault.numbers['PACKET']
    return moments[number] if number < len(moments) else None
