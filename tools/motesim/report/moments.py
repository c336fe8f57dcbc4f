"""Packets that one mote sends at the same moment: their copies arrive together, and collide with each other.

`collided(report)` counts the copies that are lost in this way; `bursts(report)` returns the motes and moments of such
packets.
"""
from __future__ import annotations

from collections import Counter
from itertools import compress, repeat
from operator import eq
from typing import NamedTuple

from motesim.report import OUTCOMES, Report


class Burst(NamedTuple):
    """The first moment at which a mote sent several packets that collided, and their number."""
    sender: int
    at: int
    packets: int


def _collided(report: Report) -> Counter[tuple[int, int, int]]:
    """The numbers of collided copies with the same sender, moment and receiver, if there are several."""
    log = report.log
    if len(set(zip(log.sender, log.at))) == len(log.at):
        # (without a moment of several packets, the outcomes of the copies aren't needed)
        return Counter()
    keys = zip(log.of_copies(log.sender), log.of_copies(log.at), log.to)
    counts = Counter(compress(keys, map(eq, report.fates, repeat(OUTCOMES.index('collided')))))
    return Counter({key: count for key, count in counts.items() if count > 1})


def collided(report: Report) -> int:
    """The number of copies that collided with another packet that their sender sent at the same moment."""
    return _collided(report).total()


def bursts(report: Report) -> list[Burst]:
    """For each mote that sent packets at the same moment that collided with each other, the first such moment."""
    found: dict[int, Burst] = {}
    for (sender, at, _), count in sorted(_collided(report).items()):
        its = found.setdefault(sender, Burst(sender, at, count))
        if its.at == at:
            found[sender] = its._replace(packets=max(count, its.packets))
    return [*found.values()]
