"""What `expect`, `compare` and `search` return."""
from __future__ import annotations

from dataclasses import dataclass


@dataclass(frozen=True, repr=False)
class Kept:
    """An expectation, and whether it holds for a run. It is true if the expectation holds, so a test can `assert` it.

    expectation  the text, as the caller wrote it
    holds        whether the expectation holds
    why          the reason why it doesn't hold; empty if it holds
    row          the first line of the report that shows this, counted from 1, or None
    """
    expectation: str
    holds: bool
    why: str = ''
    row: int | None = None

    def __bool__(self) -> bool:
        return self.holds

    def __repr__(self) -> str:
        """In words: a test that fails shows them."""
        if self.holds:
            return 'holds: ' + self.expectation
        return 'broken: %s -- %s%s' % (self.expectation, self.why, '' if self.row is None else ' line %d' % self.row)


@dataclass(frozen=True)
class Comparison:
    """Two runs next to each other.

    same    whether their reports are the same
    at      the first moment at which the traces or the logs of the medium diverge, or None
    text    the output of tools/compare
    """
    same: bool
    at: int | None
    text: str


@dataclass(frozen=True)
class FaultSet:
    """A smallest set of faults, and the expectations that it breaks: each of them holds with each smaller set in it.
    `motesim.run(FILE, faults=it.faults)` makes its run."""
    faults: tuple[str, ...]
    expectations: tuple[str, ...]


@dataclass(frozen=True, repr=False)
class Searched:
    """What a search has found. It is true if no fault breaks an expectation, so a test can `assert` it.

    found     the smallest sets that break an expectation, the worst first
    broken    the expectations that are broken without a fault
    holding   those that no covered set breaks
    unsaid    those that claims can't say, so that no set was tried
    covered   which sets were tried, in the words of motecheck
    ended_by  why not all sets were tried; an empty text if they were
    """
    found: list[FaultSet]
    broken: tuple[str, ...]
    holding: tuple[str, ...]
    unsaid: tuple[str, ...]
    covered: str
    ended_by: str

    def __bool__(self) -> bool:
        return not (self.found or self.broken or self.unsaid or self.ended_by)

    def __repr__(self) -> str:
        """In words: a test that fails shows them."""
        said = ['broken without a fault: ' + it for it in self.broken] + ['not tried: ' + it for it in self.unsaid]
        said += ['%s: broken with %s' % (', '.join(it.expectations), ' and '.join(it.faults)) for it in self.found]
        return '; '.join(said + [self.covered] + [self.ended_by] * bool(self.ended_by))
