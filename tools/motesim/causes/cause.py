"""The cause for which a run breaks a sentence, in a form that can be compared with that in another run."""
from __future__ import annotations

from typing import NamedTuple

from motesim.faults import Fault
from motesim.causes.chain import Hop, chain
from motesim.causes.miss import Miss, misses
from motesim.causes.question import Asked, Asker
from motesim.causes.source import Source


class Cause(NamedTuple):
    """The kinds of the causes in a chain, those of `Link.how`; or, if lines are missing, that of the nearest miss. And
    the nearest cause in the run."""
    kinds: frozenset[str]
    source: Source | None = None
    nearest: Hop | Miss | None = None

    def differs(self, first: Cause) -> bool:
        """Returns whether this run has a cause of another kind than the first one."""
        return not self.kinds <= first.kinds


NO_CAUSE = Cause(frozenset())


def cause_of(source: Source, sentence: str) -> Cause:
    """The cause for which a run breaks a sentence; `NO_CAUSE` if the sentence is about no line of a trace."""
    asker = Asker(source)
    try:
        found = asker.about(sentence)
    except Fault:
        return NO_CAUSE
    if isinstance(found, Asked):
        hops = chain(source, found.where)
        return Cause(frozenset(hop.link.how for hop in hops), source, hops[0])
    near = [near[0] for _, near in misses(asker, found)[:1] if near]
    return Cause(frozenset(it.kind for it in near), source, near[0]) if near else NO_CAUSE
