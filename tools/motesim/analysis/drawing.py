"""Pictures, drawn by matplotlib: SVG, PDF or PNG. Pictures of the same points have the same bytes."""
from __future__ import annotations

import logging
from collections.abc import Sequence
from pathlib import Path
from typing import Any

from motesim import packages
from motesim.analysis.estimates import Estimate
from motesim.analysis.plots import Plot
from motesim.analysis.points import Shown, lines_of
from motesim.analysis.tables import named, places_of
from motesim.cells import Cell, text_of
from motesim.faults import Fault

# Colours that readers with colour blindness can distinguish (Okabe and Ito); lines differ by their marks too.
COLOURS = ['#0072b2', '#d55e00', '#009e73', '#cc79a7', '#e69f00', '#56b4e9', '#000000']
MARKS = ['o', 's', '^', 'D', 'v', 'P', 'X']
# The width and height of a picture in inches, and the most numbers of an axis that all have labels.
SIZE, MOST_TICKS = (6.4, 4.2), 12
METADATA: dict[str, dict[str, str | None]] = {
    '.svg': {'Date': None}, '.png': {'Software': 'motesim'}, '.pdf': {'CreationDate': None, 'Producer': 'motesim'}}


def _axes() -> tuple[Any, Any]:
    # (matplotlib reports in each process that it can't keep its list of fonts, which concerns no picture)
    logging.getLogger('matplotlib').setLevel(logging.ERROR)
    matplotlib: Any = packages.load('matplotlib')
    matplotlib.use('Agg')
    matplotlib.rcParams.update({'svg.hashsalt': 'motesim', 'svg.fonttype': 'none', 'pdf.fonttype': 42})
    figure, axes = packages.load('matplotlib.pyplot').subplots(figsize=SIZE, layout='constrained')
    axes.grid(True, color='#dddddd', linewidth=0.6)
    axes.spines[['top', 'right']].set_visible(False)
    return figure, axes


def look(number: int, is_joined: bool) -> dict[str, str]:
    """The colour, mark and stroke of a line; the first 49 lines all look different."""
    mark = MARKS[(number + number // len(MARKS)) % len(MARKS)]
    return {'color': COLOURS[number % len(COLOURS)], 'marker': mark, 'linestyle': '-' if is_joined else ''}


def errors(found: Sequence[Estimate]) -> list[list[float]]:
    """The lengths of intervals below and above their middles."""
    return [[0.0 if it.low is None else max(0.0, it.middle - it.low) for it in found],
            [0.0 if it.high is None else max(0.0, it.high - it.middle) for it in found]]


def draw(shown: Shown, plot: Plot, path: Path) -> None:
    """Draws the points."""
    figure, axes = _axes()
    _, names = places_of([it.x for it in shown.points])
    for number, (by, points) in enumerate(lines_of(shown.points).items()):
        label = named(by, plot.by) or None
        xs = _xs([it.x for it in points], names)
        across = errors([it.across for it in points if it.across]) if points[0].across else None
        axes.errorbar(xs, [it.estimate.middle for it in points], errors([it.estimate for it in points]), across,
                      label=label, capsize=3, elinewidth=1, **look(number, not names and bool(plot.against)))
    _finish(figure, axes, plot, path, [] if shown.points[0].across else [it.x for it in shown.points])


def _xs(values: Sequence[Cell], names: Sequence[str]) -> list[float]:
    return [float(names.index(text_of(it))) for it in values] if names else places_of(values)[0]


def _finish(figure: Any, axes: Any, plot: Plot, path: Path, xs: Sequence[Cell]) -> None:
    """Adds scales, texts and a legend, and writes the picture. `xs` has the values of a parameter on the axis."""
    places, names = places_of(xs)
    if plot.log and (names or min(places, default=1.0) <= 0):
        raise Fault('`log` needs numbers above 0, and %s has others' % plot.against)
    if plot.log:
        axes.set_xscale('log')
    if names:
        axes.set_xticks(range(len(names)), names)
    elif plot.against and 0 < len(set(places)) <= MOST_TICKS:
        axes.set_xticks(sorted(set(places)), ['%g' % it for it in sorted(set(places))])
        axes.minorticks_off()
    elif not plot.against:
        axes.set_xticks([])
    axes.set_xlabel(plot.x or plot.against)
    axes.set_ylabel(plot.y or plot.measure)
    axes.set_title(plot.title)
    if axes.get_legend_handles_labels()[1]:
        axes.legend(frameon=False)
    try:
        figure.savefig(path, dpi=150, metadata=METADATA[path.suffix])
    except OSError as fault:
        raise Fault('%s: %s' % (path, fault.strerror)) from None
    finally:
        packages.load('matplotlib.pyplot').close(figure)
