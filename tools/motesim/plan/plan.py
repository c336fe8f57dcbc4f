"""Makes scenarios from a plan, which describes places, programs and losses by rules. docs/use/EXPERIMENTS.md describes
all tables and keys of plans.

    plan = Plan.read('examples/studies/trickle.plan.toml')
    text = plan.scenario({'seed': 7})       # parameters that aren't named have the plan's own values

The same plan, files and parameters yield the same bytes on any machine. An error is a `PlanFault`, which shows the
place in the plan or in the file next to it.
"""
from __future__ import annotations

from collections.abc import Mapping
from pathlib import Path

from motesim.faults import Fault
from motesim.plan.files import Files
from motesim.plan.keys import TOP
from motesim.plan.net import Builder, files_of
from motesim.plan.tables import NAME, Tables, Value, as_truth
from motesim.scenario.encodings import decoded, read_file
from motesim.text import nearest

UNUSED = 'nothing uses the parameter %s, so its values make no difference: write ${%s} in the plan or in a program'


class Plan:
    """A plan's text, with the files next to it. Faults name it by the typed path, `shown_as`, if that is given."""

    def __init__(self, name: str, text: str, files: Files, shown_as: str = '') -> None:
        self.name, self.text, self.files, self.shown_as = name, text, files, shown_as or name
        tables = Tables(name, text, self.shown_as)
        for key in tables.top:
            if key not in TOP:
                known = ', '.join('`%s`' % it for it in TOP)
                more = ' Is this a scenario? ./run reads it without a plan.' if key == 'version' else ''
                raise tables.fault((key,), 'A plan has no key of this name.' + more, known, False)
        self.tables = tables
        self.parameters = self._parameters()

    @classmethod
    def read(cls, path: str | Path) -> Plan:
        path = Path(path)
        return cls(path.name, decoded(str(path), read_file(path)), Files(path.parent), str(path))

    def _parameters(self) -> dict[str, Value]:
        """The parameters with their default values."""
        table = self.tables.top.get('parameters', {})
        if type(table) is not dict:
            raise self.tables.fault(('parameters',), '`parameters` must be a table.', '`[parameters]`')
        for name, value in table.items():
            path = 'parameters', name
            if not NAME.fullmatch(name):
                raise self.tables.fault(path, 'The name of this parameter is not allowed.', 'a name of `a-z 0-9 _`',
                                        False)
            if type(value) not in (int, bool, str):
                raise self.tables.fault(path, 'The value of this parameter is not of an allowed kind.',
                                        'a whole number, a text, `true` or `false`')
        return dict(table)

    def with_given(self, given: Mapping[str, Value]) -> dict[str, Value]:
        """All parameters, with these values instead of the plan's own. The text `True`, as Python writes it in tables,
        is also a truth value."""
        for name in given:
            if name not in self.parameters:
                known, like = ', '.join(self.parameters) or 'none', nearest(name, self.parameters)
                raise Fault('%s has no parameter %s; it has: %s%s' % (
                    self.shown_as, name, known, '; did you mean %s?' % like if like else ''))
        return {**self.parameters, **{name: as_truth(value) if type(self.parameters[name]) is bool else value
                                      for name, value in given.items()}}

    def builder(self, given: Mapping[str, Value]) -> Builder:
        """The builder of the scenario, which counts the nets that it rejects."""
        return Builder(self.tables.with_parameters(self.with_given(given)), self.files)

    def scenario(self, given: Mapping[str, Value]) -> str:
        """The scenario's text."""
        return self.builder(given).scenario()

    def used_files(self, given: Mapping[str, Value]) -> list[str]:
        """The names of the files that the scenario needs, as far as they are known."""
        return files_of(self.tables.with_parameters(self.with_given(given)), self.files)

    def paths(self, given: Mapping[str, Value]) -> list[Path]:
        """The file of the plan, and the files that the scenario needs."""
        folder = self.files.folder
        return [folder / self.name, *(folder / it for it in self.used_files(given))]

    def digest(self, given: Mapping[str, Value]) -> str:
        """The SHA-256 of the parts of the plan that determine a run, and of the files that it needs."""
        return self.files.digest(self.tables.of_runs(), self.used_files(given))
