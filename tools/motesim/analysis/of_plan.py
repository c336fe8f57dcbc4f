"""The pictures of a plan: the tables of its array `plot`."""
from __future__ import annotations

from collections.abc import Sequence
from typing import Any

from motesim.analysis.plots import OPTIONS, Plot
from motesim.faults import Fault
from motesim.plan.plan import Plan
from motesim.plan.tables import Key, any_kind, needed, optional, text_of_value


def _key(default: Any) -> Key:
    if isinstance(default, (str, bool)):
        return optional(type(default), default)
    return any_kind('a text, a number, a table or an array', False)


KEYS = {it.name: needed(str) if it.name in ('measure', 'file') else _key(it.default) for it in OPTIONS}


def plots_of(plan: Plan, parameters: Sequence[str] = (), measures: Sequence[str] = ()) -> list[Plot]:
    """The requests of a plan; if names are given, the names in the requests are among them."""
    found: list[Plot] = []
    for path, given in plan.tables.array('plot'):
        values = plan.tables.read(given, path, KEYS, 'A plot')
        try:
            plot = Plot(**{name: _value(name, value) for name, value in values.items() if value is not None})
            plot.check()
            if measures:
                plot.check_names(parameters, measures)
            if plot.file in [it.file for it in found]:
                raise Fault('another plot has the file %s' % plot.file)
        except (Fault, TypeError) as fault:
            raise plan.tables.fault(path, 'This plot can\'t be drawn: %s.' % fault, '', False) from None
        found.append(plot)
    return found


def _value(name: str, value: Any) -> Any:
    """The value of a key, as an option has it."""
    if name == 'where':
        its = value.items() if isinstance(value, dict) else ()
        return ['%s=%s' % (key, ','.join(map(text_of_value, it if isinstance(it, list) else [it]))) for key, it in its]
    if name in ('by', 'over'):
        return value.split(',') if isinstance(value, str) else value
    return value
