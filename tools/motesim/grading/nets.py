"""The teacher's nets, in which the programs of solutions run."""
from __future__ import annotations

import itertools
import math
from collections.abc import Iterator, Sequence
from dataclasses import dataclass, replace
from pathlib import Path

from motesim.plan.values import named, values_of
from motesim.faults import Fault
from motesim.plan.plan import Plan
from motesim.plan.tables import Value, text_of_value
from motesim.plan.text import Mote
from motesim.plan.text import Net as NetOfPlan
from motesim.plan.text import scenario_text
from motesim.scenario.encodings import read_file
from motesim.scenario import Scenario
from motesim.scenario.refused import check
from motesim.terminal import cut
from motesim.toml import MARK, NoToml, read_toml

# The most nets of a plan.
MOST_NETS = 1_000
# The most names of programs in a message, and the greatest length of each.
MOST_NAMES, LONGEST_NAME = 5, 40


@dataclass(frozen=True)
class Net:
    """A net: its name, its scenario, and the name of the program that solutions replace.

    is_hidden  whether students must not see it
    """
    name: str
    scenario: Scenario
    program: str
    is_hidden: bool = False

    def with_program(self, source: str) -> str:
        """The scenario with another text of the program."""
        its = self.scenario
        net = NetOfPlan(its.end, its.range, its.base, its.per, its.collide, {**its.programs, self.program: source},
                        its.queue, [Mote(*place) for place in its.places], its.losses)
        return scenario_text([], net)


def _read(path: Path) -> Plan | str:
    """The plan in a file, or the text of its scenario."""
    text = read_file(path).decode('utf-8', 'replace')
    try:
        return Plan.read(path) if 'places' in read_toml(text) else text
    except NoToml as fault:
        raise Fault('%s is not TOML: %s' % (path, fault)) from None


def _own_values(plan: Plan) -> dict[str, list[Value]]:
    """The values that a plan has in its table `sweep`."""
    its = plan.tables.top.get('sweep', {}).get('vary', {})
    return {name: values_of(values) if isinstance(values, str) else list(values) for name, values in its.items()}


def _texts(file: str, its: Plan | str, asked: dict[str, list[Value]]) -> Iterator[tuple[str, str]]:
    """The scenarios of a file, each with a name: the only scenario of the file, or the scenarios of a plan."""
    if isinstance(its, str):
        yield file, its
        return
    asked = {**_own_values(its), **asked}
    if math.prod(map(len, asked.values())) > MOST_NETS:
        raise Fault('%s has more than %s nets: vary fewer values' % (file, '{:,}'.format(MOST_NETS)))
    for values_now in itertools.product(*asked.values()):
        given = dict(zip(asked, values_now))
        shown = ' '.join('%s=%s' % (name, text_of_value(value)) for name, value in given.items())
        yield ' '.join(it for it in (file, shown) if it), its.scenario(given)


def _net(name: str, text: str, program: str | None) -> Net:
    check(name, text.encode())
    scenario = Scenario.parse(text)
    names = list(scenario.programs)
    if program is None and len(names) != 1:
        raise Fault('%s has several programs: --program says which one the solutions have (%s)' % (
            name, ', '.join(names)))
    if program is not None and program not in names:
        raise Fault('%s has no program %s; it has: %s' % (name, program, ', '.join(names)))
    return Net(name, scenario, program or names[0])


def nets_of(paths: Sequence[Path], given: Sequence[str], program: str | None, is_hidden: bool = False) -> list[Net]:
    """The nets of these files; a plan has one for each combination of the values of its table `sweep` and of these.
    (Hidden nets with the values of the shown nets would be the same as those.)"""
    asked = {name: values_of(values) for name, values in map(named, given)}
    files = [(path.name, _read(path)) for path in paths]
    if asked and all(isinstance(its, str) for _, its in files):
        scenarios = ''.join('; %s is a scenario, because it has no table [places]' % name for name, _ in files[:1])
        raise Fault('--param needs a plan that --net names' + scenarios)
    found = [_net(name, text, program) for file, its in files for name, text in _texts(file, its, asked)]
    return [replace(it, is_hidden=is_hidden) for it in found]


def files_of(paths: Sequence[Path]) -> list[Path]:
    """The files of nets, and the files that plans among them need with their own values."""
    found = [_read(path) for path in paths]
    return [*paths, *(it for plan in found if isinstance(plan, Plan) for it in plan.paths({}))]


def program_of(text: str, name: str, wanted: str) -> str:
    """The text of the program that a solution has: the one of this name, or its only one."""
    if name.endswith('.mote'):
        return text.removeprefix(MARK)
    try:
        programs = read_toml(text).get('programs')
    except NoToml as fault:
        raise Fault('the file is not TOML: %s' % fault) from None
    if type(programs) is not dict or not programs:
        raise Fault('the file has no table `[programs]`')
    found = programs.get(wanted) or (next(iter(programs.values())) if len(programs) == 1 else None)
    if found is None:
        names = ', '.join('`%s`' % cut(it, LONGEST_NAME) for it in [*programs][:MOST_NAMES])
        raise Fault('it has no program `%s`, but %s%s: rename the one that solves the task to `%s`, and grade again' % (
            wanted, names, ', ..' * (len(programs) > MOST_NAMES), wanted))
    if type(found) is not str:
        raise Fault('the program `%s` is not a text' % wanted)
    return found
