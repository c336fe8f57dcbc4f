"""The points of a picture: the runs of a sweep in groups, each with its estimate."""
from __future__ import annotations

from collections import Counter
from collections.abc import Callable, Mapping, Sequence
from typing import NamedTuple

from motesim.analysis.estimates import Estimate, mean_by_t, median_with_quartiles, share_by_wilson
from motesim.analysis.plots import Plot
from motesim.plan.values import values_of
from motesim.cells import Cell, text_of
from motesim.experiments.results import Head, Row
from motesim.faults import Fault
from motesim.plan.tables import text_of_value

# A column about a run's net that can be shown like a measure.
REJECTED = 'rejected'
MOST_SHOWN = 12
Values = tuple[Cell, ...]


class Point(NamedTuple):
    """The runs with the same values of `by` and of the parameter on the horizontal axis.

    x       the place on the horizontal axis: a value of the parameter, or the middle of a measure
    across  the estimate of that measure
    along   with a measure on each axis, the values of the parameters in which the points of a line differ
    """
    by: Values
    x: Cell
    runs: Sequence[Row]
    values: Sequence[float]
    estimate: Estimate
    across: Estimate | None = None
    along: Values = ()


class Shown(NamedTuple):
    """The points, the parameters in which the runs of a point differ, lines about runs that are left out and about what
    may mislead, and the parameters in which the points of a line differ if each axis has a measure."""
    points: list[Point]
    over: list[str]
    notes: list[str]
    along: list[str]


def is_repeat(name: str, over: Sequence[str]) -> bool:
    """Returns whether a parameter only repeats runs: those of `over` or, by default, `seed` and names that end in
    `_seed`."""
    return name in over if over else name == 'seed' or name.endswith('_seed')


def order(value: Cell) -> tuple[bool, float, str]:
    """The key by which numbers are sorted by their size, before texts."""
    return (False, float(value), '') if isinstance(value, int | float) else (True, 0.0, str(value))


def orders(values: Values) -> list[tuple[bool, float, str]]:
    return list(map(order, values))


def measures_in(head: Head) -> list[str]:
    return [*head.measures, REJECTED]


def chosen(rows: Sequence[Row], where: Sequence[str]) -> list[Row]:
    """The rows with these values: `period=20`, `period=10,20` or `seed=1..5`."""
    found = list(rows)
    for words in where:
        name, _, value = words.partition('=')
        texts = set(map(text_of_value, values_of(value)))
        having = {text_of(row[name]) for row in rows}
        if not texts <= having:
            raise Fault('no run has %s = %s; there are: %s' % (
                name, ', '.join(sorted(texts - having)), some_of([row[name] for row in rows])))
        found = [row for row in found if text_of(row[name]) in texts]
    if not found:
        raise Fault('no run has these values together: %s' % ', '.join(where))
    return found


def some_of(values: Sequence[Cell]) -> str:
    """Values in a message; if there are many, the first ones."""
    found = [text_of(it) or 'none' for it in sorted(set(values), key=order)]
    return ', '.join(found[:MOST_SHOWN] + ['..'] * (len(found) > MOST_SHOWN))


def number_of(row: Row, measure: str) -> float | None:
    """The value of a measure; raises a fault for a text."""
    value = row[measure]
    if isinstance(value, str):
        raise Fault('the measure %s has texts, such as %r' % (measure, value))
    return None if value is None else float(value)


def varying(rows: Sequence[Row], names: Sequence[str]) -> list[str]:
    return [name for name in names if len({row[name] for row in rows}) > 1]


def check_mixture(rows: Sequence[Row], names: Sequence[str], plot: Plot) -> None:
    """Refuses runs at one point that differ in a parameter that doesn't only repeat them."""
    for name in names:
        if not is_repeat(name, plot.over):
            one = text_of(rows[0][name])
            repeats = [it for it in names if is_repeat(it, plot.over)]
            raise Fault('the runs of a point or line would differ in %s (%s): --by %s draws a line for each value, '
                        '--param %s=%s selects some, and %s mixes them' % (
                            name, some_of([row[name] for row in rows]), name, name, one,
                            ' '.join('--over %s' % it for it in [*repeats, name])))


def estimate_of(head: Head, rows: Sequence[Row], measure: str, plot: Plot) -> Callable[[Sequence[float]], Estimate]:
    """The function that estimates a measure. A mean has Wilson's interval if the measure is a `holds:`, or the number 0
    or 1 of a function in Python in all runs of the file."""
    part = plot.confidence / 100
    if plot.show != 'mean':
        return median_with_quartiles
    text = head.measures.get(measure, '')
    values = {row[measure] for row in rows if row[measure] is not None}
    if text.startswith('holds') or text.startswith('python') and values == {0, 1}:
        return lambda its: share_by_wilson(its, part)
    return lambda its: mean_by_t(its, part)


def shown_of(head: Head, rows: Sequence[Row], plot: Plot) -> Shown:
    """The points that are to be shown."""
    selected = chosen(rows, plot.where)
    good = [row for row in selected if not row['error']]
    has_two = bool(plot.against) and plot.against not in head.parameters
    measures = [plot.against, plot.measure] if has_two else [plot.measure]
    full = [row for row in good if None not in [number_of(row, it) for it in measures]]
    if not full:
        raise Fault('there is no value of %s to show in %s, %d of them with an error' % (
            ' and '.join(measures), some(len(selected)), len(selected) - len(good)))
    free = [it for it in varying(good, head.parameters) if it not in plot.by and it != plot.against]
    # (with a measure on each axis, the runs of a point differ only in repetitions, and those of a line in a parameter)
    along = [it for it in free if not is_repeat(it, plot.over)] if has_two else []
    over = [it for it in free if it not in along]
    check_mixture(good, [*over, *along[1:]], plot)
    groups: dict[tuple[Values, Values], list[Row]] = {}
    for row in full:
        keys = along if has_two else [plot.against] * bool(plot.against)
        groups.setdefault((tuple(row[it] for it in plot.by), tuple(row[it] for it in keys)), []).append(row)
    up, across = (estimate_of(head, rows, it, plot) for it in (plot.measure, measures[0]))
    points = []
    for by, key in sorted(groups, key=lambda it: (orders(it[0]), orders(it[1]))):
        runs = groups[by, key]
        values = _values(runs, plot.measure)
        if has_two:
            found = across(_values(runs, plot.against))
            points.append(Point(by, found.middle, runs, values, up(values), found, key))
        elif values:
            points.append(Point(by, key[0] if key else None, runs, values, up(values)))
    return Shown(points, over, [*left_out(selected, good, full, measures), *doubts(full), *shared(points)],
                 along)


def _values(rows: Sequence[Row], measure: str) -> list[float]:
    return [it for it in (number_of(row, measure) for row in rows) if it is not None]


def left_out(selected: Sequence[Row], good: Sequence[Row], full: Sequence[Row], measures: Sequence[str]) -> list[str]:
    """The lines about runs that are left out."""
    return ['left out: %s %s' % (some(count), why) for count, why in (
        (len(selected) - len(good), 'with an error'),
        (len(good) - len(full), 'without a value of %s' % ' or '.join(measures))) if count]


def doubts(rows: Sequence[Row]) -> list[str]:
    """A line for each warning of a sweep about these runs."""
    codes = Counter(code for row in rows for code in text_of(row['warnings']).split())
    return ['warning: %s in %s of %d (docs/use/EXPERIMENTS.md)' % (code, some(count), len(rows))
            for code, count in codes.items()]


def shared(points: Sequence[Point]) -> list[str]:
    """The warning about the first point that has several nets, but fewer nets than runs."""
    for point in points:
        nets = {row['places_sha256'] for row in point.runs}
        if 1 < len(nets) < len(point.runs):
            return ['warning: %s in %d nets: runs in one net aren\'t independent, so intervals are too narrow' % (
                some(len(point.runs)), len(nets))]
    return []


def some(number: int, word: str = 'run') -> str:
    """A count with its noun, such as `3 runs`."""
    return '%d %s%s' % (number, word, '' if number == 1 else 's')


def lines_of(points: Sequence[Point]) -> Mapping[Values, list[Point]]:
    """The points of each line of a picture."""
    found: dict[Values, list[Point]] = {}
    for point in points:
        found.setdefault(point.by, []).append(point)
    return found
