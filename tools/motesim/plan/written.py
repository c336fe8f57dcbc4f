"""Writes the scenario of a plan, or the plan of a scenario, to a file. tools/scenario is the command."""
from __future__ import annotations

import argparse
import sys
from pathlib import Path

from motesim.scenario.encodings import read_file
from motesim.scenario import faults as scenario_faults
from motesim.faults import Fault
from motesim.files import refuse_inputs, write_whole
from motesim.output import made_beside
from motesim.plan.from_scenario import write_plan
from motesim.plan.plan import UNUSED, Plan
from motesim.plan.tables import Value, value_of_text
from motesim.plan.values import named
from motesim.scenario import Scenario
from motesim.scenario.refused import check


def checked(text: str) -> str:
    """The text. Raises a fault if `motesim` would refuse it."""
    fault = scenario_faults.find_fault(text.encode())
    if fault:
        place = fault.place(text)
        raise Fault('the plan has no error, but the scenario that it makes has: %s, line %d\n  %s' % (
            fault.message, place.line, text.split('\n')[place.line - 1]))
    return text


def unused(plan: Plan, given: dict[str, Value]) -> list[str]:
    """The given parameters that occur neither in the plan nor in a file that the plan needs."""
    texts = [plan.text, *(plan.files.read(it).decode('utf-8', 'replace') for it in plan.used_files(given))]
    return [name for name in given if not any('${%s}' % name in text for text in texts)]


def write_from(source: str, output: str | None) -> int:
    """Writes the plan of a scenario."""
    data = read_file(source)
    check(source, data)
    name = 'net' if source == '-' else Path(source).stem
    plan = Path(output) if output else made_beside(source, name + '.plan.toml')
    if plan.suffix != '.toml':
        raise Fault('%s: the name of a plan ends in .toml' % plan)
    for path in write_plan(Scenario.parse(data), source, plan):
        print(path)
    return 0


def status_of(asked: argparse.Namespace) -> int:
    """The work of tools/scenario; returns the status."""
    if asked.source:
        return write_from(asked.source, asked.output)
    plan = Plan.read(asked.plan)
    given = {name: value_of_text(value) for name, value in map(named, asked.param)}
    text = checked(plan.scenario(given))
    for name in unused(plan, given):
        print('scenario: warning: ' + UNUSED % (name, name), file=sys.stderr)
    if not asked.output:
        sys.stdout.write(text)
        return 0
    refuse_inputs(asked.output, plan.paths(given))
    write_whole(asked.output, [text.encode('utf-8')])
    print(asked.output)
    return 0
