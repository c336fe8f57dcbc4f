"""The requests for tables and pictures. The options of tools/plot are also the keys of a plan's `plot`."""
from __future__ import annotations

import dataclasses
from collections.abc import Sequence
from dataclasses import dataclass
from typing import Any, NamedTuple

from motesim.faults import Fault

SHOWS = ('median', 'mean')
FORMATS = ('.svg', '.pdf', '.png')


@dataclass(frozen=True)
class Plot:
    """A request; the options below explain its fields."""
    measure: str = ''
    against: str = ''
    by: Sequence[str] = ()
    show: str = 'median'
    confidence: float = 95
    over: Sequence[str] = ()
    pair: str = ''
    where: Sequence[str] = ()
    file: str = ''
    title: str = ''
    x: str = ''
    y: str = ''
    log: bool = False

    def check(self) -> None:
        """Refuses values and combinations that have no meaning."""
        for is_wrong, reason in (
                (not self.measure, '`measure` is missing'),
                (self.show not in SHOWS, '`show` is %s, and not %r' % (', '.join(SHOWS), self.show)),
                (not 50 <= self.confidence <= 99.9, '`confidence` is 50 to 99.9, and not %g' % self.confidence),
                (self.file and not self.file.endswith(FORMATS),
                 'a picture is SVG, PDF or PNG, and the name %s ends in none of .svg, .pdf and .png' % self.file),
                (self.pair and self.show != 'mean', 'a comparison shows means: `show` is mean together with `pair`'),
                (self.pair and self.file, 'a comparison is a table: leave out `file`'),
                (self.log and not self.against, '`log` needs `against`')):
            if is_wrong:
                raise Fault(reason)

    def check_names(self, parameters: Sequence[str], measures: Sequence[str]) -> None:
        """Refuses names that the results don't have."""
        for key, names, known in (
                ('measure', [self.measure], measures), ('against', [self.against], [*parameters, *measures]),
                ('by', self.by, parameters), ('over', self.over, parameters),
                ('pair', [self.pair.partition('=')[0]], parameters),
                ('where', [it.partition('=')[0] for it in self.where], parameters)):
            for name in names:
                if name and name not in known:
                    raise Fault('`%s` names %s, and the results have: %s' % (key, name, ', '.join(known)))


class Option(NamedTuple):
    """A field of a request: its name, the form of its value on the command line, and its help."""
    name: str
    form: str
    help: str

    @property
    def default(self) -> Any:
        return {it.name: it.default for it in dataclasses.fields(Plot)}[self.name]


OPTIONS = (
    Option('measure', 'NAME', 'the measure to show'),
    Option('against', 'NAME', 'the parameter, or the measure, on the horizontal axis (one row over all runs)'),
    Option('by', 'NAME', 'a line for each value of this parameter, or, if it is given twice, for each pair of values'),
    Option('show', 'VIEW', 'median (with quartiles) or mean (with an interval) (median)'),
    Option('confidence', 'PERCENT', 'the confidence of the intervals (95)'),
    Option('over', 'NAME',
           'a parameter in which the runs of a point may differ (`seed` and names that end in `_seed`)'),
    Option('pair', 'NAME=ONE,OTHER', 'compare two values of a parameter, run by run'),
    Option('where', 'NAME=VALUES', 'only the runs with these values: 20, or 10,20, or 10..30'),
    Option('file', 'FILE', 'the picture, NAME.svg, NAME.pdf or NAME.png'),
    Option('title', 'TEXT', 'the text above the picture'),
    Option('x', 'TEXT', 'the text at the horizontal axis'),
    Option('y', 'TEXT', 'the text at the vertical axis'),
    Option('log', '', 'a logarithmic horizontal axis'),
)
