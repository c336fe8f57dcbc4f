"""Two values of a parameter, compared run by run: both runs of a pair have the same values of all other parameters, so
effects that they share cancel."""
from __future__ import annotations

import statistics
from collections.abc import Sequence
from typing import NamedTuple

from motesim.analysis.estimates import Estimate, mean_by_t
from motesim.analysis.plots import Plot
from motesim.analysis.points import Values, check_mixture, chosen, doubts, number_of, orders, some, some_of, varying
from motesim.cells import Cell, text_of
from motesim.experiments.results import Head, Row, cell
from motesim.faults import Fault

# The digits of a number in results: beyond them, differences that are equal in decimal digits may not be equal.
DIGITS = 12


class Difference(NamedTuple):
    """The comparison of the pairs at one point: the means of both sides, the mean difference with its interval, and in
    how many pairs the second side is greater or less."""
    by: Values
    x: Cell
    one: float
    other: float
    estimate: Estimate
    greater: int
    less: int


class Compared(NamedTuple):
    """The differences, the names of both sides, the parameters in which the pairs of a point differ, and notes."""
    differences: list[Difference]
    names: tuple[str, str]
    over: list[str]
    notes: list[str]


def sides_of(rows: Sequence[Row], pair: str) -> tuple[str, list[list[Row]], tuple[str, str]]:
    """The parameter of a pair, the rows of its two sides, and their names."""
    name, _, values = pair.partition('=')
    parts = values.split(',')
    if len(parts) != 2:
        raise Fault('--pair needs NAME=ONE,OTHER, not %r' % pair)
    sides = [[row for row in rows if text_of(row[name]) == text_of(cell(part))] for part in parts]
    for part, side in zip(parts, sides):
        if not side:
            raise Fault('no run has %s = %s; there are: %s' % (name, part, some_of([row[name] for row in rows])))
    return name, sides, ('%s %s' % (name, parts[0]), '%s %s' % (name, parts[1]))


def compare(head: Head, rows: Sequence[Row], plot: Plot) -> Compared:
    """Compares the two sides of a pair."""
    if plot.against and plot.against not in head.parameters:
        raise Fault('a comparison has a parameter on the horizontal axis, and %s is a measure' % plot.against)
    rows = [row for row in chosen(rows, plot.where) if not row['error']]
    name, sides, names = sides_of(rows, plot.pair)
    kept = [it for it in head.parameters if it != name]
    over = [it for it in varying([*sides[0], *sides[1]], kept) if it not in (*plot.by, plot.against)]
    check_mixture([*sides[0], *sides[1]], over, plot)
    first, second = ({tuple(row[it] for it in kept): row for row in side} for side in sides)
    pairs = [(first[key], second[key]) for key in first if key in second]
    full = [(one, other) for one, other in pairs
            if None not in (number_of(one, plot.measure), number_of(other, plot.measure))]
    if not full:
        raise Fault('no two runs of %s and %s have the same values of %s, and a value of %s' % (
            *names, ', '.join(kept), plot.measure))
    notes = ['left out: %s without a value on both sides' % some(len(first | second) - len(full), 'pair')] * (
        len(first | second) > len(full))
    nets = sum(one['places_sha256'] != other['places_sha256'] for one, other in full)
    notes += ['warning: in %d of %d pairs the two sides have different nets, whose effect stays' % (
        nets, len(full))] * bool(nets)
    return Compared(_differences(full, plot), names, over, notes + doubts([row for pair in full for row in pair]))


def _differences(pairs: Sequence[tuple[Row, Row]], plot: Plot) -> list[Difference]:
    groups: dict[tuple[Values, Cell], list[tuple[float, float]]] = {}
    for row, other in pairs:
        place = tuple(row[it] for it in plot.by), row[plot.against] if plot.against else None
        one, two = number_of(row, plot.measure), number_of(other, plot.measure)
        assert one is not None and two is not None
        groups.setdefault(place, []).append((one, two))
    found = []
    for (by, x), its in sorted(groups.items(), key=lambda it: (orders(it[0][0]), orders((it[0][1],)))):
        gaps = [round(other - one, DIGITS) for one, other in its]
        found.append(Difference(by, x, statistics.fmean(it[0] for it in its), statistics.fmean(it[1] for it in its),
                                mean_by_t(gaps, plot.confidence / 100), sum(it > 0 for it in gaps),
                                sum(it < 0 for it in gaps)))
    return found
