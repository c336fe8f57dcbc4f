"""The message about a scenario that `motesim` refuses, which is the same in all tools: the place, the error and the
rule."""
from __future__ import annotations

from motesim.faults import Fault
from motesim.notation import faults as of_programs
from motesim.scenario.encodings import not_text
from motesim.scenario.faults import NOT_TEXT, RULES, ScenarioError, find_fault
from motesim.scenario.in_programs import place_of_token


class ScenarioFault(Fault):
    """A text that is not a scenario, or not the one of a report."""


def line_of(text: str, error: ScenarioError) -> int | None:
    """The line of an error, if it has one in the text."""
    if error.program:
        place = place_of_token(text, str(error.path[1]), error.program.token)
        return place.line if place else None
    return None if error.lacks else error.place(text).line


def rule_of_program(its: of_programs.ProgramError) -> str:
    """The rule that the text of a program breaks."""
    title, rule = of_programs.RULES[its.kind]
    if its.token.kind == 'end' and its.kind == 2:
        rule = 'The text ends here, but other words must follow those before it.'
    return '%s: %s' % (title, rule)


def rule_of(error: ScenarioError) -> str:
    """The rule that a text breaks, and what is allowed instead."""
    if error.program:
        return rule_of_program(error.program)
    return '%s Allowed here: %s.' % (RULES[error.message], error.may)


def refused(name: str, data: bytes, error: ScenarioError) -> ScenarioFault:
    """The fault of a scenario from a file of this name."""
    if data.startswith(b'mote 0 '):
        return ScenarioFault(
            '%s is a report, not a scenario: tools/summary, tools/compare and tools/timeline read it' % name)
    line = line_of(data.decode('utf-8', 'replace'), error)
    if error.message == NOT_TEXT and line:
        return ScenarioFault(not_text(name, line))
    at = '%s, line %d' % (name, line) if line else name
    return ScenarioFault('%s: %s: %s tools/explain %s says more' % (at, error.message, rule_of(error), name))


def check(name: str, data: bytes) -> None:
    """Raises a `ScenarioFault` if `motesim` refuses a scenario."""
    error = find_fault(data)
    if error:
        raise refused(name, data, error)
