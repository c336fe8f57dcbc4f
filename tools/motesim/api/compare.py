"""`motesim.compare`: two runs next to each other."""
from __future__ import annotations

from typing import TYPE_CHECKING

from motesim.api.answers import Comparison
from motesim.comparison.reports import MOST, compared

if TYPE_CHECKING:
    from motesim.report.run import Run


def compare(one: Run, other: Run) -> Comparison:
    """Compares the reports of two runs."""
    lines, first, is_same = compared(one, other, MOST)
    return Comparison(is_same, first.at if first else None, '\n'.join(lines))
