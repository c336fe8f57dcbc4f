"""Warnings about things that are legal in a scenario, but probably not meant.

`warnings(scenario, report)` returns them in the order of the programs and motes. A scenario with warnings is valid, and
has a report.
"""
from __future__ import annotations

from collections.abc import Collection, Iterator

from motesim.explain.of_nets import of_halts, of_moments, of_net
from motesim.explain.of_structure import of_structure
from motesim.explain.of_values import of_values
from motesim.explain.of_waits import of_waits
from motesim.explain.say import ABOUT_ZERO
from motesim.explain.warned import Warned, together
from motesim.notation.reader import read_program
from motesim.report import Report
from motesim.scenario import Scenario
from motesim.scenario.made import ZERO_GIVEN


def silenced(found: Iterator[Warned], text: str, names: Collection[str] = ()) -> Iterator[Warned]:
    """The warnings without those of some names. If a parameter of the plan that made this text is 0, a 0 of a program
    may be its value, so there are no warnings about a 0."""
    is_given = ZERO_GIVEN.search(text) is not None
    return (it for it in found if it.name not in names and not (is_given and it.name in ABOUT_ZERO))


def of_program(name: str, source: str) -> Iterator[Warned]:
    """Yields the warnings about the text of a program that has no fault."""
    program = read_program(source)
    for rule in of_structure, of_waits, of_values:
        yield from rule(name, program)


def of_run(scenario: Scenario, report: Report | None) -> Iterator[Warned]:
    """Yields the warnings about a net, and about what happened in its run."""
    yield from of_net(scenario, {name: read_program(source) for name, source in scenario.programs.items()})
    if report is not None:
        yield from of_moments(report)
        yield from of_halts(scenario, report)


def warnings(scenario: Scenario, report: Report | None = None, text: str = '', silent: Collection[str] = ()
             ) -> list[Warned]:
    """The warnings of a scenario. If its report is given, they include those about what happened in the run.

    text    the scenario's text, whose comment has the parameters of the plan that made it
    silent  the names of the warnings that are left out
    """
    found = (it for name, source in scenario.programs.items() for it in of_program(name, source))
    return together([*silenced(found, text, silent), *silenced(of_run(scenario, report), text, silent)])
