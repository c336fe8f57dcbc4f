"""Shows the measures of a sweep in tables and pictures. tools/plot is the command."""
from __future__ import annotations

import argparse
import shlex
import sys
from collections.abc import Sequence
from dataclasses import replace
from pathlib import Path
from typing import Any

from motesim import packages
from motesim.analysis import drawing
from motesim.analysis.of_plan import plots_of
from motesim.analysis.paired import compare
from motesim.analysis.plots import OPTIONS, Plot
from motesim.analysis.points import measures_in, shown_of
from motesim.analysis.tables import heading, lines, rows_of, rows_of_differences
from motesim.cells import line_of
from motesim.experiments.results import Head, Row, read_results
from motesim.faults import Fault
from motesim.files import refuse_inputs, write_whole
from motesim.plan.plan import Plan


def table_path(picture: Path) -> Path:
    """The file for the table of a picture."""
    return picture.with_suffix('.table.csv')


def show(results: Path, head: Head, rows: list[Row], plot: Plot, folder: Path, called: str, is_csv: bool = False
         ) -> None:
    """Draws a picture, or prints a table; `called` is the command."""
    picture = folder / plot.file if plot.file else None
    if plot.pair:
        found = compare(head, rows, plot)
        table, notes = rows_of_differences(found, plot), found.notes
        words = heading(plot, found.over, [it.estimate.method for it in found.differences],
                        ': %s less %s, run by run' % (found.names[1], found.names[0]))
    else:
        shown = shown_of(head, rows, plot)
        table, notes = rows_of(shown, plot), shown.notes
        words = heading(plot, shown.over, [it.estimate.method for it in shown.points])
        if picture:
            drawing.draw(shown, plot, picture)
    text = ''.join([line_of(list(table[0])), *(line_of(row.values()) for row in table)])
    if picture:
        origin = head.origin(results, called)
        write_whole(table_path(picture), [('%s\n%s' % (origin, text)).encode()])
        print(picture)
    elif is_csv:
        print(text, end='')
    else:
        print('\n'.join([words, *lines(table)]))
    for note in notes:
        print(note, file=sys.stderr if is_csv else sys.stdout)


def draw_plan(results: Path, plan: str, plots: Sequence[Plot]) -> None:
    """Draws the pictures of a plan."""
    head, rows = read_results(results)
    packages.need('matplotlib')
    for plot in plots:
        show(results, head, rows, plot, results.parent, shlex.join(['tools/plot', str(results), '--plan', plan]))


def status_of(asked: argparse.Namespace) -> int:
    """The work of tools/plot; returns the status."""
    results = Path(asked.results)
    head, rows = read_results(results)
    if not rows:
        raise Fault('%s has no runs: run tools/sweep again' % results)
    called = shlex.join(['tools/plot', *sys.argv[1:]])
    given: dict[str, Any] = {it.name: value for it in OPTIONS
                             if (value := getattr(asked, it.name)) != it.default and value != []}
    if asked.plan:
        if set(given) - {'where'}:
            raise Fault('with --plan, the plan\'s `plot` has all options but --param')
        plots, folder = plots_of(Plan.read(asked.plan)), results.parent
        if not plots:
            raise Fault('%s has no `plot`: add tables [[plot]] to it, or name --measure' % asked.plan)
        plots = [replace(it, where=[*it.where, *asked.where]) for it in plots]
    else:
        if asked.pair and not given.get('show'):
            given['show'] = 'mean'
        plots, folder = [Plot(**given)], Path()
    for plot in plots:
        plot.check()
        if plot.file and asked.csv is not None:
            raise Fault('a picture has its table next to it: leave out --csv or -o')
        plot.check_names(head.parameters, measures_in(head))
        if plot.file:
            for path in folder / plot.file, table_path(folder / plot.file):
                refuse_inputs(path, [results, asked.plan])
    if any(plot.file for plot in plots):
        packages.need('matplotlib')
    for plot in plots:
        show(results, head, rows, plot, folder, called, asked.csv is not None)
    return 0
