"""How far a value came that never was on its way to a mote: the mote nearest to it that sent the value, and what became
of the copies on the way."""
from __future__ import annotations

from collections import Counter
from collections.abc import Set
from typing import NamedTuple

from motesim.report import OUTCOMES
from motesim.causes.fate import Fate, fate_of
from motesim.causes.source import Source

MOST_RECEIVERS = 3


class Onward(NamedTuple):
    """The copies for a mote that is nearer to the one that is asked about: how many of them had each outcome, and the
    fate of the last one."""
    to: int
    outcomes: tuple[tuple[str, int], ...]
    last: Fate


class Spread(NamedTuple):
    """The value, the nearest mote that sent it, how often and when last, and the copies for nearer motes."""
    value: int
    sender: int
    times: int
    last: int
    copies: tuple[Onward, ...]


def spread_of(source: Source, values: Set[int], mote: int, end: int) -> tuple[Spread, int] | None:
    """How far one of these values came up to a moment, and the row of the report with its last packet; None if no mote
    sent it, or if a copy was on its way to this mote."""
    report, scenario = source.traces.report, source.scenario
    log = report.log
    sent = [place for place, value in enumerate(log.value) if value in values and log.at[place] <= end]
    if any(log.sender[place] == mote or mote in log.to[log.first[place]:log.first[place + 1]] for place in sent):
        return None
    hops = {sender: scenario.hops_from(sender) for sender in {log.sender[place] for place in sent}}
    nearest = min(hops, key=lambda it: (hops[it].get(mote, scenario.motes), -it), default=None)
    if nearest is None:
        return None
    own = [place for place in sent if log.sender[place] == nearest]
    left = {to: scenario.hops_from(to).get(mote) for to in scenario.receivers(nearest)}
    distance = hops[nearest].get(mote, scenario.motes)
    onward = sorted((hop, to) for to, hop in left.items() if hop is not None and hop < distance)[:MOST_RECEIVERS]
    copies = []
    for _, to in onward:
        became = Counter(OUTCOMES[report.fates[copy]] for place in own for copy in range(*log.first[place:place + 2])
                         if log.to[copy] == to)
        copies.append(Onward(to, tuple(became.most_common()), fate_of(source, own[-1], to)))
    return (Spread(log.value[own[-1]], nearest, len(own), log.at[own[-1]], tuple(copies)),
            report.medium_row + 1 + own[-1])
