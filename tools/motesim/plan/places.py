"""Places of motes by a rule: grid, line, ring, random. The same rule has the same places on any machine.
docs/use/EXPERIMENTS.md has the rules.
"""
from __future__ import annotations

import math
from collections.abc import Iterable
from typing import NamedTuple

from motesim.plan.chance import Chance

Point = tuple[int, int]

# The most draws of one place, and of a whole net, before the rule counts as one that can't be met.
TRIES_FOR_A_PLACE = 1_000
TRIES_FOR_A_NET = 300

# The digits of a real number that count: those beyond them may differ from machine to machine.
DIGITS = 6


class NoPlace(Exception):
    """The rule can't be met; the reason, in a sentence."""


class NotConnected(NoPlace):
    """No net that was drawn is connected."""


class Crowd:
    """Points, sorted into squares, to find near ones."""

    def __init__(self, side: int) -> None:
        self.side = max(1, side)
        self.squares: dict[Point, list[Point]] = {}

    def square(self, point: Point) -> Point:
        return point[0] // self.side, point[1] // self.side

    def add(self, point: Point) -> None:
        self.squares.setdefault(self.square(point), []).append(point)

    def near(self, point: Point) -> Iterable[Point]:
        """The points in the square of a point, and in the squares around it: all that are at most a side away, and some
        farther ones."""
        x, y = self.square(point)
        for dx in (-1, 0, 1):
            for dy in (-1, 0, 1):
                yield from self.squares.get((x + dx, y + dy), ())


def squared(one: Point, other: Point) -> int:
    """The square of a distance."""
    return (one[0] - other[0]) ** 2 + (one[1] - other[1]) ** 2


def is_connected(points: list[Point], reach: int) -> bool:
    """Returns whether each point can be reached from the first by steps that are not longer than `reach`."""
    crowd = Crowd(reach)
    for point in points:
        crowd.add(point)
    seen, reached = {points[0]}, [points[0]]
    for point in reached:
        for other in crowd.near(point):
            if other not in seen and squared(point, other) <= reach * reach:
                seen.add(other)
                reached.append(other)
    return len(seen) == len(set(points))


def grid(columns: int, rows: int, step: int) -> list[Point]:
    """Places in rows, one row after another, each from left to right."""
    return [(column * step, row * step) for row in range(rows) for column in range(columns)]


def ring(count: int, radius: int) -> list[Point]:
    """Places around the point (0, 0), beginning at the right; none is farther from it than the radius."""
    angles = (math.tau * number / count for number in range(count))
    return [(int(round(radius * math.cos(it), DIGITS)), int(round(radius * math.sin(it), DIGITS))) for it in angles]


def _net(chance: Chance, count: int, width: int, height: int, least: int) -> list[Point]:
    """Places in an area, none of which is nearer to another than `least`."""
    crowd = Crowd(least)
    points: list[Point] = []
    for number in range(count):
        for _ in range(TRIES_FOR_A_PLACE):
            point = chance.below(width + 1), chance.below(height + 1)
            if not least or all(squared(point, other) >= least * least for other in crowd.near(point)):
                break
        else:
            raise NoPlace('Mote %d of %d was placed %d times, and was always nearer than %d to another one.' % (
                number, count, TRIES_FOR_A_PLACE, least))
        crowd.add(point)
        points.append(point)
    return points


class Drawn(NamedTuple):
    """The places of a net, and the number of nets that were drawn before it and rejected."""
    points: list[Point]
    rejected: int


def scattered(count: int, width: int, height: int, seed: int, least: int, reach: int | None, stream: int = 0) -> Drawn:
    """Places anywhere in an area, which includes its edges; with a reach, nets are drawn until one is connected."""
    chance = Chance(seed, stream)
    for rejected in range(TRIES_FOR_A_NET):
        points = _net(chance, count, width, height, least)
        if reach is None or is_connected(points, reach):
            return Drawn(points, rejected)
    raise NotConnected('None of the %d nets that the tool sampled is connected with a `range` of %s.' % (
        TRIES_FOR_A_NET, reach))
