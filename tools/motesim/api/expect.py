"""`motesim.expect`: which expectations hold for a run."""
from __future__ import annotations

from collections.abc import Sequence
from typing import TYPE_CHECKING

from motesim.api.answers import Kept
from motesim.faults import Fault
from motesim.judge.finder import Finder
from motesim.judge.names import names_of
from motesim.judge.several import read_all
from motesim.judge.verdicts import breaks

if TYPE_CHECKING:
    from motesim.report.run import Run


def expect(found: Run, sentences: Sequence[str] | str) -> list[Kept]:
    """Checks which expectations hold for a run: docs/use/EXPECTATIONS.md has their forms.

    Raises a `Fault` for an expectation that can't be read, and for a run whose scenario isn't known.
    """
    if found.scenario is None:
        raise Fault('expect needs the scenario of the run: run the scenario, or read the report together with it')
    texts = [sentences] if isinstance(sentences, str) else list(sentences)
    broken = breaks(read_all(texts, names_of(found.scenario)), Finder(found.report, found.scenario))
    return [Kept(text, it is None, it.words if it else '', it.row if it else None) for text, it in zip(texts, broken)]
