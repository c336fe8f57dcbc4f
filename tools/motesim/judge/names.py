"""The names that a sentence about a scenario may use."""
from __future__ import annotations

from dataclasses import dataclass

from motesim.notation.grammar import SYSTEM
from motesim.notation.reader import read_program
from motesim.scenario import Scenario
from motesim.scenario.fields import Field


@dataclass(frozen=True)
class Names:
    """The names that a sentence may use: the processes of the programs, and the number of motes; None if unknown. `own`
    has the processes of each mote's program, and `fields` those of the declared format of packets."""
    processes: tuple[str, ...] | None = None
    motes: int | None = None
    own: tuple[tuple[str, ...], ...] = ()
    fields: tuple[Field, ...] = ()


def processes_of(program: object) -> list[str]:
    """The processes that a program's text declares."""
    return [it.text for it in read_program(program).processes] if isinstance(program, str) else []


def names_of(scenario: Scenario) -> Names:
    """Returns the names that a sentence about this scenario may use."""
    own = {name: tuple(processes_of(text)) for name, text in scenario.programs.items()}
    found = dict.fromkeys((*SYSTEM, *(it for its in own.values() for it in its)))
    return Names(tuple(found), scenario.motes, tuple(own.get(it.program, ()) for it in scenario.places),
                 scenario.fields)
