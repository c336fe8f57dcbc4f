"""`motesim.why`: the causes of a line of a run, or why there is no such line."""
from __future__ import annotations

from typing import TYPE_CHECKING

from motesim.faults import Fault
from motesim.causes.command import answer_of
from motesim.causes.question import Asker
from motesim.causes.source import source_of

if TYPE_CHECKING:
    from motesim.report.run import Run


def why(found: Run, question: str) -> str:
    """The answer of tools/why to a question about a run, as text: an expectation, such as `mote 0 prints news`, or a
    line of the report. docs/use/DEBUGGING.md has the forms.

    Raises a `Fault` for a question that can't be read, and for a run whose scenario isn't known.
    """
    if found.scenario is None:
        raise Fault('why needs the scenario of the run: run the scenario, or read the report together with it')
    return answer_of(Asker(source_of(found)), question)
