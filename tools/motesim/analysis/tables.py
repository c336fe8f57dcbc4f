"""The tables behind pictures."""
from __future__ import annotations

from collections.abc import Sequence

from motesim.analysis.paired import Compared
from motesim.analysis.plots import Plot
from motesim.analysis.points import Point, Shown, Values, order
from motesim.cells import Cell, aligned, text_of
from motesim.experiments.results import Row

WAYS = {'t': 'Student\'s t', 'Wilson': 'Wilson\'s score'}


def heading(plot: Plot, over: Sequence[str], methods: Sequence[str], more: str = '') -> str:
    """What a table shows."""
    ways = [WAYS[it] for it in dict.fromkeys(methods) if it in WAYS]
    return ''.join([
        plot.measure, ' against %s' % plot.against if plot.against else '',
        ', only runs with %s' % ' and '.join(plot.where) if plot.where else '',
        ', over %s' % ', '.join(over) if over else '', more,
        ': means with intervals of %g %% by %s' % (plot.confidence, ' or '.join(ways)) if ways else ''])


def rows_of(shown: Shown, plot: Plot) -> list[Row]:
    """The points as rows of a table."""
    return [{**dict(zip(shown.along, point.along)), **_of_point(point, plot)} for point in shown.points]


def _of_by(by: Values, plot: Plot) -> Row:
    return dict(zip(plot.by, by))


def _of_x(x: Cell, plot: Plot) -> Row:
    return {plot.against: x} if plot.against else {}


def _of_point(point: Point, plot: Plot) -> Row:
    names = ('first quartile', 'third quartile') if plot.show == 'median' else ('low', 'high')
    row = {**_of_by(point.by, plot), **_of_x(point.x, plot)}
    if point.across:
        row |= {'%s %s' % (plot.against, names[0]): point.across.low,
                '%s %s' % (plot.against, names[1]): point.across.high}
    runs, middle, low, high, method = point.estimate
    if plot.show == 'median':
        return {**row, 'runs': runs, names[0]: low, 'median': middle, names[1]: high}
    return {**row, 'runs': runs, 'mean': middle, 'low': low, 'high': high, 'interval': method}


def rows_of_differences(found: Compared, plot: Plot) -> list[Row]:
    """A comparison as rows of a table."""
    one, other = found.names
    return [{**_of_by(it.by, plot), **_of_x(it.x, plot), 'pairs': it.estimate.runs, one: it.one, other: it.other,
             'difference': it.estimate.middle, 'low': it.estimate.low, 'high': it.estimate.high,
             'interval': it.estimate.method, 'greater': it.greater, 'less': it.less} for it in found.differences]


def lines(rows: Sequence[Row]) -> list[str]:
    """The rows in columns. All real numbers of a column have the same number of decimals."""
    columns = {name: _texts([row[name] for row in rows]) for name in rows[0]}
    return list(aligned([list(columns), *zip(*columns.values())]))


def _texts(values: Sequence[Cell]) -> list[str]:
    return ['%.3f' % it if isinstance(it, float) else text_of(it) for it in values]


def named(by: Values, names: Sequence[str]) -> str:
    """The values of `by`, as in `period 20, density thin`."""
    return ', '.join('%s %s' % (name, text_of(value)) for name, value in zip(names, by))


def places_of(values: Sequence[Cell]) -> tuple[list[float], list[str]]:
    """The places of values on an axis; and, if some are names, the names, in whose order they are then placed."""
    if all(isinstance(it, int | float) for it in values):
        return [float(it) for it in values if isinstance(it, int | float)], []
    names = sorted(set(values), key=order)
    return [float(names.index(it)) for it in values], list(map(text_of, names))
