"""The tables of a plan: which keys they have, and faults with their places.

A value that is a text may name parameters, `"${step}"`. A text that is only `"${step}"` is replaced by the
parameter's value, which may be a number, `true` or `false`.
"""
from __future__ import annotations

import json
import re
from collections.abc import Mapping
from copy import copy
from dataclasses import dataclass
from typing import Any, NoReturn

from motesim.text import folded, shown_place
from motesim.faults import Fault
from motesim.notation.grammar import PARAMETER
from motesim.scenario.places import Path, Place, place_of, value_of
from motesim.toml import NoToml, read_toml

NAME = re.compile('[a-z][a-z0-9_]{0,31}')
NUMBER = re.compile('-?(0|[1-9][0-9]{0,17})')
KINDS: dict[type, str] = {int: 'a whole number', str: 'a text', dict: 'a table', list: 'an array',
                          bool: '`true` or `false`'}

# The value of a parameter.
Value = int | bool | str
Table = dict[str, Any]


class PlanFault(Fault):
    """An error in a plan or in a file next to it, with its place."""


class NoParameter(Exception):
    """A text names a parameter that doesn't exist: its name, and the column of the mark."""

    def __init__(self, name: str, at: int) -> None:
        super().__init__(name)
        self.name, self.at = name, at


@dataclass(frozen=True)
class Key:
    """The rule of a key: its kind, the least and the greatest number or count, and its default value."""
    kind: type
    least: int = 0
    most: int = 0
    default: object = None
    is_needed: bool = True
    words: str = ''

    def may(self, name: str) -> str:
        """The values that the key may have."""
        if self.words:
            return '`%s`: %s' % (name, self.words)
        if self.kind is int:
            return '`%s`: a whole number, %s to %s' % (name, '{:,}'.format(self.least), '{:,}'.format(self.most))
        return '`%s`: %s' % (name, KINDS[self.kind])


def needed(kind: type, least: int = 0, most: int = 0) -> Key:
    return Key(kind, least, most)


def optional(kind: type, default: object, least: int = 0, most: int = 0) -> Key:
    return Key(kind, least, most, default, False)


def any_kind(words: str, is_needed: bool) -> Key:
    """A key that may have values of several kinds, which this text names."""
    return Key(object, is_needed=is_needed, words=words)


def value_of_text(text: str) -> Value:
    """A parameter's value in the form of a command line."""
    if NUMBER.fullmatch(text):
        return int(text)
    return text == 'true' if text in ('true', 'false') else text


def as_truth(value: Value) -> Value:
    """A value from a row of results; true and false may be written as in TOML or as in Python."""
    found = value.lower() if type(value) is str else value
    return found == 'true' if found in ('true', 'false') else value


def text_of_value(value: Value) -> str:
    """A parameter's value in the form of a text."""
    return str(value).lower() if type(value) is bool else str(value)


def filled(text: str, parameters: Mapping[str, Value]) -> str:
    """A text with the values of its parameters."""
    def value(found: re.Match[str]) -> str:
        if found[1] not in parameters:
            raise NoParameter(found[1], found.start())
        return text_of_value(parameters[found[1]])

    return PARAMETER.sub(value, text)


def shown(name: str, text: str, place: Place, rule: str, may: str) -> str:
    """The message of a fault: the line with a mark, the rule, and the allowed values."""
    return '\n'.join(folded([*shown_place(name, text, place), rule, *['Allowed here: %s' % may] * bool(may)]))


class Tables:
    """A plan's text with its tables, and the values of its parameters."""

    def __init__(self, name: str, text: str, shown_as: str) -> None:
        self.name, self.text, self.shown_as = name, text, shown_as
        self.parameters: dict[str, Value] = {}
        try:
            self.top: Table = read_toml(text)
        except NoToml as fault:
            self._no_toml(fault)

    def with_parameters(self, parameters: Mapping[str, Value]) -> Tables:
        """The same tables with these values of the parameters."""
        made = copy(self)
        made.parameters = dict(parameters)
        return made

    def of_runs(self) -> str:
        """The parts of the plan that determine a run with given parameters, as a text: no pictures, sweeps, default
        values or comments."""
        deciding = {name: value for name, value in self.top.items() if name not in ('parameters', 'plot', 'sweep')}
        return json.dumps(deciding, sort_keys=True, default=str)

    def _no_toml(self, fault: NoToml) -> NoReturn:
        place = Place(fault.line, fault.column, 1)
        raise PlanFault(shown(self.shown_as, self.text, place, 'A plan is a TOML document, and this text is not.',
                              'TOML (%s)' % fault.shown))

    def fault(self, path: Path, rule: str, may: str = '', is_value: bool = True) -> PlanFault:
        """A fault at a key or a table; `is_value` marks the value after the key."""
        is_of_value = is_value and path and type(path[-1]) is str
        place = value_of(self.text, path) if is_of_value else place_of(self.text, path)
        return PlanFault(shown(self.shown_as, self.text, place, rule, may))

    def filled(self, value: Any, path: Path) -> Any:
        """A value with its parameters filled in."""
        if type(value) is not str or '${' not in value:
            return value
        whole = PARAMETER.fullmatch(value)
        if whole and whole[1] in self.parameters:
            return self.parameters[whole[1]]
        try:
            return filled(value, self.parameters)
        except NoParameter as fault:
            raise self.fault(path, 'The plan has no parameter `%s`.' % fault.name, self.names()) from None

    def names(self) -> str:
        """The parameters that may be named."""
        return ', '.join('`${%s}`' % it for it in self.parameters) or 'no parameter: the table `parameters` is empty'

    def read(self, table: object, path: Path, keys: Mapping[str, Key], what: str) -> Table:
        """A table with these keys, its parameters filled in. `what` names it, as in `A grid`."""
        if type(table) is not dict:
            raise self.fault(path, '%s is a table.' % what, 'a table')
        for name in table:
            if name not in keys:
                known = ', '.join('`%s`' % it for it in keys)
                raise self.fault(path + (name,), '%s has no key of this name.' % what, known, False)
        for name, key in keys.items():
            if key.is_needed and name not in table:
                raise self.fault(path, '%s needs the key `%s`, but it is missing.' % (what, name), key.may(name), False)
        return {name: self.checked(table[name], path + (name,), name, key) if name in table else key.default
                for name, key in keys.items()}

    def checked(self, value: Any, path: Path, name: str, key: Key) -> Any:
        """The value of a key."""
        found = self.filled(value, path)
        given = '' if found is value else ' `%s` is %s here.' % (value, text_of_value(found))
        if type(found) is not key.kind and key.kind is not object:
            raise self.fault(path, 'This is not %s.%s' % (KINDS[key.kind], given), key.may(name))
        size = found if key.kind is int else len(found) if key.kind is list else None
        if size is not None and key.most and not key.least <= size <= key.most:
            raise self.fault(path, 'This is out of range.' + given, key.may(name))
        return found

    def array(self, name: str) -> list[tuple[Path, Any]]:
        """The tables of an array of the plan, with their paths; a single table counts as an array of one."""
        value = self.top.get(name, [])
        if type(value) is dict:
            return [((name,), value)]
        if type(value) is not list:
            raise self.fault((name,), '`%s` is a table, or an array of tables.' % name, '`[%s]`' % name)
        return [((name, index), it) for index, it in enumerate(value)]
