"""The request for a sweep: the values of the parameters, and the measures."""
from __future__ import annotations

import contextlib
from collections.abc import Iterator, Mapping, Sequence
from dataclasses import dataclass
from functools import cached_property

from motesim.experiments.measures import mote_of, read_measure
from motesim.cells import text_of
from motesim.experiments.results import MADE, Row
from motesim.faults import Fault
from motesim.judge.names import Names, names_of
from motesim.judge.sentence_fault import SentenceFault
from motesim.plan.plan import Plan
from motesim.plan.tables import Value, optional, text_of_value
from motesim.plan.values import MOST_RUNS, named, values_of
from motesim.scenario import Scenario

# The greatest number of runs whose scenarios are made before the first run, to find mistakes early.
MOST_TRIED = 40
SECONDS, MOST_SECONDS, MOST_BYTES = 60, 86_400, 200 << 20
SWEEP = {'vary': optional(dict, {}), 'measure': optional(list, []), 'seconds': optional(int, SECONDS, 1, MOST_SECONDS)}


@dataclass
class Sweep:
    """A plan, the values of the parameters that vary, and the measures."""
    plan: Plan
    vary: dict[str, list[Value]]
    measures: list[str]
    seconds: float
    most_bytes: int = MOST_BYTES

    def runs(self) -> int:
        count = 1
        for values in self.vary.values():
            count *= len(values)
        return count

    def run_at(self, place: int) -> dict[str, Value]:
        """The values of all parameters in the run at this place of the order. Of the parameters that vary, the last one
        changes from each run to the next."""
        found: dict[str, Value] = {}
        for name, values in reversed(self.vary.items()):
            place, at = divmod(place, len(values))
            found[name] = values[at]
        return self.plan.with_given(found)

    def place_of(self, row: Row) -> int | None:
        """The place of a row; None for a row with other values."""
        place = 0
        for name, value in self.plan.parameters.items():
            if name not in self.vary and text_of(row.get(name)) != text_of_value(value):
                return None
        for name, places in self._places.items():
            at = places.get(text_of(row.get(name)))
            if at is None:
                return None
            place = place * len(places) + at
        return place

    @cached_property
    def _places(self) -> dict[str, dict[str, int]]:
        """For each parameter that varies, the place of each value."""
        return {name: {text_of_value(value): place for place, value in enumerate(values)}
                for name, values in self.vary.items()}

    def tried(self) -> Iterator[dict[str, Value]]:
        """Some of the runs: the first and the last, and the first with each other value of each parameter."""
        given = [self.run_at(0), self.run_at(self.runs() - 1)]
        given += [{**given[0], name: value} for name, values in self.vary.items() for value in values[1:]]
        yield from given[:MOST_TRIED]


def sweep_of(plan: Plan, vary: Sequence[str], measures: Sequence[str], seconds: float | None) -> Sweep:
    """Returns the request of the plan's table `sweep` and of the command line."""
    table = plan.tables.read(plan.tables.top.get('sweep', {}), ('sweep',), SWEEP, 'A sweep')
    asked = {name: _values_in_plan(plan, name, values) for name, values in table['vary'].items()}
    given = [named(words) for words in vary]
    for name, text in given:
        if [it for it, _ in given].count(name) > 1:
            raise Fault('--param names %s twice: name all its values in one option' % name)
        asked[name] = values_of(text)
    plan.with_given({name: values[0] for name, values in asked.items()})
    if not all(type(it) is str for it in table['measure']):
        raise plan.tables.fault(('sweep', 'measure'), 'A measure is a text.', 'an array of texts')
    sweep = Sweep(plan, asked, [*table['measure'], *measures], seconds or table['seconds'])
    if not sweep.measures:
        raise Fault('there is nothing to measure: --measure sent, or `measure = ["sent"]` in the table `sweep` of the '
                    'plan')
    if sweep.runs() > MOST_RUNS:
        raise Fault('these are %s runs, and at most %s are made' % (
            '{:,}'.format(sweep.runs()), '{:,}'.format(MOST_RUNS)))
    return sweep


def _values_in_plan(plan: Plan, name: str, values: object) -> list[Value]:
    path = 'sweep', 'vary', name
    if name not in plan.parameters:
        raise plan.tables.fault(path, 'The plan has no parameter of this name.',
                                ', '.join('`%s`' % it for it in plan.parameters) or 'none', False)
    if type(values) is str:
        return values_of(values)
    if type(values) is not list or not values or not all(type(it) in (int, str, bool) for it in values):
        raise plan.tables.fault(path, 'These are not values.', '`"10,20,40"`, `"1..30"` or an array')
    return list(values)


def unused(sweep: Sweep) -> list[str]:
    """The parameters that vary, though neither the plan nor a file of the tried runs names them."""
    texts = {'': sweep.plan.text}
    for given in sweep.tried():
        with contextlib.suppress(Fault):
            for name in set(sweep.plan.used_files(given)).difference(texts):
                texts[name] = sweep.plan.files.read(name).decode('utf-8', 'replace')
    return [name for name, values in sweep.vary.items() if len(values) > 1
            and not any('${%s}' % name in text for text in texts.values())]


def known_names(sweep: Sweep) -> Names:
    """The names that sentences may use: all processes of the tried runs, and the motes of the largest net. Raises the
    first fault if none of these runs has a scenario."""
    first: Fault | None = None
    processes: dict[str, None] = {}
    motes = 0
    for given in sweep.tried():
        try:
            found = names_of(Scenario.parse(sweep.plan.scenario(given)))
        except Fault as fault:
            first = first or fault
            continue
        processes.update(dict.fromkeys(found.processes or ()))
        motes = max(motes, found.motes or 0)
    if not motes and first:
        raise first
    return Names(tuple(processes), motes)


def measures_of(sweep: Sweep, names: Names, sources: Mapping[str, str]) -> dict[str, str]:
    """The text of each measure by the name of its column. A measure that can't be read in any of the tried runs is
    refused before any run."""
    found: dict[str, str] = {}
    for words in sweep.measures:
        try:
            measure = read_measure(words, names, sources)
        except SentenceFault as fault:
            raise Fault('in the measure %r\n%s' % (words, fault.explained)) from None
        if (mote_of(words) or 0) >= (names.motes or 0):
            raise Fault('in the measure %r: the largest net has the motes 0 to %d' % (words, (names.motes or 0) - 1))
        if measure.name in (*found, *sweep.plan.parameters, *MADE):
            raise Fault('two columns would have the name %s: `other_name = MEASURE` names one' % measure.name)
        found[measure.name] = ' '.join(measure.words.split())
    return found
