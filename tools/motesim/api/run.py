"""`motesim.run`: the run of a scenario or of a plan, and what it is asked."""
from __future__ import annotations

from collections.abc import Mapping, Sequence
from pathlib import Path
from typing import TYPE_CHECKING, NamedTuple

import motesim
from motesim.api.answers import Kept
from motesim.faults import Fault
from motesim.report.run import Run as Found
from motesim.report.run import read_run, run_of
from motesim.runner import Limits, Runner

if TYPE_CHECKING:
    from motesim.plan.plan import Plan
    from motesim.plan.tables import Value


class Run(Found):
    """A run: its `report` and its `scenario`."""
    __slots__ = ()

    def __repr__(self) -> str:
        return 'the run of %s' % self.name

    def expect(self, expectation: str) -> Kept:
        """Whether an expectation holds, with the reason if it doesn't: `assert run.expect('no mote halts')`."""
        # (the package loads its modules for expectations only now)
        return motesim.expect(self, expectation)[0]

    def mote(self, number: int) -> Mote:
        """What a mote does: `assert run.mote(2).prints('news 7 by 40')`."""
        return Mote(self, number)


class Mote(NamedTuple):
    """A mote of a run. Each method is the expectation of its words: docs/use/EXPECTATIONS.md has the forms."""
    run: Run
    number: int

    def __repr__(self) -> str:
        return 'mote %d' % self.number

    def does(self, *words: str | int) -> Kept:
        """Whether the expectation `mote N WORDS` holds, such as `run.mote(2).does('finally prints leader 4')`."""
        return self.run.expect(' '.join(['mote', str(self.number), *map(str, words)]))

    def prints(self, *words: str | int) -> Kept:
        """`prints('news')`, `prints('news', 7)`, `prints('news at most once')`, `prints('just news 1 to 3')`"""
        return self.does('prints', *words)

    def sends(self, *words: str | int) -> Kept:
        """`sends()`, `sends(7)`, `sends('7 twice by 60')`"""
        return self.does('sends', *words)

    def receives(self, *words: str | int) -> Kept:
        """`receives()`, `receives(7)`, `receives('7 from mote 2')`, `receives('at least 3 times')`"""
        return self.does('receives', *words)

    def halts(self, *words: str | int) -> Kept:
        """`halts()`, `halts('by 60')`; `not run.mote(2).halts()`"""
        return self.does('halts', *words)


def run(scenario: str | Path | bytes | Plan, parameters: Mapping[str, Value] | None = None, *,
        faults: Sequence[str] = (), limits: Limits = Limits(), program: Path | None = None) -> Run:
    """Runs a scenario: the name of its file, its text in bytes, or a plan with values of its parameters. With
    `parameters`, a name is that of a plan's file. `faults` are those of the run, such as `link 1 to 2 is broken`:
    docs/use/TESTING.md has their words.

    Returns a `Run` with `report` and `scenario`. Raises a `Fault`, whose text can be shown, if the scenario or a fault
    is refused, if the run reaches a limit, or if there is no `motesim`. If the file has a report, nothing runs, and
    `scenario` is None.
    """
    if isinstance(scenario, bytes) and parameters is not None:
        raise Fault("parameters are for plans: motesim.run('NAME.plan.toml', {'seed': 7})")
    if isinstance(scenario, str | Path):
        if parameters is None:
            return Run(*read_run(scenario, limits=limits, program=program, faults=faults))
        # (.. and those for plans)
        scenario = motesim.Plan.read(scenario)
    if isinstance(scenario, bytes):
        name, data = 'scenario', scenario
    else:
        name, data = 'plan', scenario.scenario(dict(parameters or {})).encode()
    runner = Runner(None if faults else program, limits, faults=faults)
    return Run(*run_of(name, data, runner))._replace(file=None)
