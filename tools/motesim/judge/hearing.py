"""Says whether a mote can hear another one, and why: the distance and the range, or a link that loses all packets."""
from __future__ import annotations

from math import isqrt

from motesim.scenario import Scenario


def distance(scenario: Scenario, s: int, r: int) -> str:
    """The distance between two motes, with at most one decimal, rounded up: one that is out of range looks so."""
    squared = scenario.squared(s, r)
    tenths = isqrt(100 * squared - 1) + 1 if squared else 0
    return '%d.%d' % divmod(tenths, 10) if tenths % 10 else '%d' % (tenths // 10)


def unheard(scenario: Scenario, r: int, s: int) -> str:
    """The reason why mote r can't hear mote s; an empty text if it can."""
    if r == s:
        return 'no mote hears its own packets'
    if not scenario.hears(r, s):
        return 'they are %s apart, and the range is %d' % (distance(scenario, s, r), scenario.range)
    return '' if scenario.is_open(s, r) else 'the medium loses all packets from %d to %d' % (s, r)


def hearing(scenario: Scenario, r: int, s: int) -> str:
    """A sentence that says if mote r can hear mote s, with the reason."""
    why = unheard(scenario, r, s)
    if why:
        return 'mote %d cannot hear mote %d: %s' % (r, s, why)
    every = scenario.losses.get((s, r))
    lost = ', and the medium loses one packet in %d from %d to %d' % (every, s, r) if every else ''
    return 'mote %d can hear mote %d: they are %s apart, the range is %d%s' % (
        r, s, distance(scenario, s, r), scenario.range, lost)

