"""Faults of scenarios: the place of the fault, the rule in plain words, and the allowed values.

`find_fault(bytes)` checks a scenario by the rules of docs/use/SCENARIO.md, in their order, and returns the first
`ScenarioError`, or None; `motesim` reports the same line.
"""
from __future__ import annotations

import re
from collections.abc import Iterator
from dataclasses import dataclass
from typing import Any

from motesim.notation.faults import ProgramError
from motesim.notation.reader import find_fault as find_program_fault
from motesim.scenario.places import Path, Place, place_of, value_of
from motesim.toml import NoToml, read_toml

LONGEST_TEXT = 1_048_576

# For each line that reports a fault, without `motesim: `, the rule. motesim.notation.faults has the rules for the
# faults of programs.
RULES: dict[str, str] = {
    'read fault': 'The scenario could not be read: the file is not there, is a folder, or reading it failed.',
    'scenario too long': 'A scenario has at most 1,048,576 bytes.',
    'scenario is not UTF-8': 'A scenario is a text in UTF-8, and these bytes are not.',
    'scenario fault 1': 'A scenario is a TOML document, and this text is not.',
    'scenario fault 2': 'A table lacks a key that it needs.',
    'scenario fault 3': 'A table has an unknown key, or a program has a name that is not allowed.',
    'scenario fault 4': 'A key has a value of the wrong kind.',
    'scenario fault 5': 'A number, or the count of motes, programs or losses, is out of range.',
    'scenario fault 6': 'A mote, or a key of `queue`, names a program that the scenario does not have.',
    'program': 'The text of this program has an error. docs/use/LANGUAGE.md has the notation.',
    'medium fault 2': 'The least delay, `base`, is at least 1: nothing is heard in the moment in which it is sent.',
    'medium fault 3': '`per` is at least 1, as the squared distance is divided by it.',
    'medium fault 4': 'A loss is between two different existing motes, its `every` is at least 1, and there is '
                      'at most one for two motes in one direction.',
    'run fault 5': 'The thread of a worker could not be started or run. Perhaps the scenario has no error.',
    'run fault 6': 'A worker stopped because of another, which reported no error. Perhaps the scenario has no error.',
    'write fault': 'The report could not be written. Perhaps the scenario has no error.',
    'out of memory': 'There was not enough memory. Perhaps the scenario has no error.',
}
NOT_TEXT = 'scenario is not UTF-8'
# Numbers of `scenario fault`.
BAD_NAME, WRONG_KIND, OUT_OF_RANGE, NO_PROGRAM = 3, 4, 5, 6


@dataclass
class ScenarioError(Exception):
    """The first fault of a scenario: the message that `motesim` prints, the place, and the allowed values.

    path  the table or the key; for a missing key, its table
    line  instead of the path, the line and the column, if the text is not TOML, or not text
    missing  the key that the table lacks, or nothing
    """
    message: str
    path: Path = ()
    may: str = ''
    line: tuple[int, int] | None = None
    program: ProgramError | None = None
    missing: str = ''

    def is_of_value(self) -> bool:
        """Returns whether the value after the key is not allowed, rather than the key."""
        if not self.path or type(self.path[-1]) is int or (
                self.path[0] == 'queue' and self.message == 'scenario fault 6'):
            return False
        return self.message not in ('scenario fault 2', 'scenario fault 3')

    @property
    def lacks(self) -> str | None:
        """The key or the table that is missing at the top of the scenario; it has no place in the text."""
        return self.missing if self.missing and not self.path else None

    def place(self, text: str) -> Place:
        """The place of the fault."""
        if self.line:
            return Place(*self.line, 1)
        return value_of(text, self.path) if self.is_of_value() else place_of(text, self.path)


@dataclass(frozen=True)
class Rule:
    """The rule of a key: its kind, the least and the greatest number, or count, and what it means."""
    kind: type
    least: int = 0
    most: int = 0
    is_needed: bool = True
    means: str = ''


TOP = {'version': Rule(int, 1, 2, means='the form of the scenario'),
       'end': Rule(int, 0, 1_000_000, means='the last moment'),
       'medium': Rule(dict, means='the radio'),
       'programs': Rule(dict, means='the programs, at most 100'),
       'mote': Rule(list, 1, 1_000, means='the motes'),
       'loss': Rule(list, 0, 10_000, False, 'the losses')}
MEDIUM = {'range': Rule(int, 0, 100_000, means='the greatest distance at which a packet is heard'),
          'base': Rule(int, 0, 1_000_000, means='the least delay'),
          'per': Rule(int, 0, 1_000_000, means='the divisor of the squared distance in the delay')}
LOSS = {'from': Rule(int, 0, 1_000_000, means='the number of the mote that sends'),
        'to': Rule(int, 0, 1_000_000, means='the number of the mote that hears'),
        'every': Rule(int, 0, 1_000_000, means='k, where every k-th packet of the sender is lost')}
MOTE = {'x': Rule(int, -30_000, 30_000, means="the mote's place"),
        'y': Rule(int, -30_000, 30_000, means="the mote's place"),
        'program': Rule(str, means='the name of the program that the mote runs')}
QUEUE = Rule(int, 1, 128, False, 'the number of events for which the queue of a mote with this program has room')
# The keys of version 2, which version 1 doesn't allow.
COLLIDE = Rule(bool, means='whether copies that arrive together collide')
QUEUES = Rule(dict, is_needed=False, means='the room in event queues')
KINDS = {int: 'a whole number', str: 'a text', dict: 'a table', list: 'an array of tables', bool: '`true` or `false`'}
MOST_PROGRAMS = 100


def may_of(name: str, key: Rule) -> str:
    """The values that a key may have."""
    if key.kind is int:
        least = 1 if name in ('base', 'per', 'every') else key.least
        return '`%s`: a whole number, %s to %s' % (name, '{:,}'.format(least), '{:,}'.format(key.most))
    if key.kind is list:
        return '`%s`: an array of %s to %s tables' % (name, key.least, '{:,}'.format(key.most))
    return '`%s`: %s' % (name, KINDS[key.kind])


def _fault(number: int, path: Path, may: str) -> ScenarioError:
    return ScenarioError('scenario fault %d' % number, path, may)


def _check_table(table: dict[str, Any], path: Path, keys: dict[str, Rule]) -> None:
    """A table's first fault: missing keys, unknown ones, values of another kind, and those out of range."""
    for name, key in keys.items():
        if key.is_needed and name not in table:
            raise ScenarioError('scenario fault 2', path, 'the key %s' % may_of(name, key), missing=name)
    for name in table:
        if name not in keys:
            raise _fault(BAD_NAME, path + (name,), 'one of the keys %s' % ', '.join('`%s`' % it for it in keys))
    for name, key in keys.items():
        _check_kind(table, path, name, key)
    for name, key in keys.items():
        if name in table and key.kind in (int, list):
            number = table[name] if key.kind is int else len(table[name])
            if not key.least <= number <= key.most:
                raise _fault(OUT_OF_RANGE, path + (name,), may_of(name, key))


def _check_kind(table: dict[str, Any], path: Path, name: str, key: Rule) -> None:
    if name in table and type(table[name]) is not key.kind:
        raise _fault(WRONG_KIND, path + (name,), may_of(name, key))
    if name in table and key.kind is list:
        for index, member in enumerate(table[name]):
            if type(member) is not dict:
                raise _fault(WRONG_KIND, path + (name, index), 'a table')


def _check_programs(programs: dict[str, Any]) -> None:
    for name in programs:
        if not re.fullmatch('[A-Za-z0-9_-]{1,32}', name):
            raise _fault(BAD_NAME, ('programs', name), 'a name of 1 to 32 of `A-Z a-z 0-9 _ -`')
    for name, text in programs.items():
        if type(text) is not str:
            raise _fault(WRONG_KIND, ('programs', name), 'a text, which is the program')
    if len(programs) > MOST_PROGRAMS:
        raise _fault(OUT_OF_RANGE, ('programs',), 'at most %d programs' % MOST_PROGRAMS)


def _check_queue(queue: dict[str, Any]) -> None:
    for name, length in queue.items():
        if type(length) is not int:
            raise _fault(WRONG_KIND, ('queue', name), may_of(name, QUEUE))
    for name, length in queue.items():
        if not QUEUE.least <= length <= QUEUE.most:
            raise _fault(OUT_OF_RANGE, ('queue', name), may_of(name, QUEUE))


def _check_names(tables: dict[str, Any]) -> None:
    """Checks that each program that is named exists."""
    may = 'the name of a program (%s)' % (', '.join(tables['programs']) or 'there is none')
    for name in tables.get('queue', {}):
        if name not in tables['programs']:
            raise _fault(NO_PROGRAM, ('queue', name), may)
    for index, mote in enumerate(tables['mote']):
        if mote['program'] not in tables['programs']:
            raise _fault(NO_PROGRAM, ('mote', index, 'program'), may)


def _check_texts(programs: dict[str, Any]) -> None:
    for name in sorted(programs, key=str.encode):
        fault = find_program_fault(programs[name])
        if fault:
            message = 'program %s fault %d line %d' % (name, fault.kind, fault.token.line)
            raise ScenarioError(message, ('programs', name), program=fault)


def check_medium(tables: dict[str, Any]) -> None:
    for number, name in (2, 'base'), (3, 'per'):
        if tables['medium'][name] == 0:
            raise ScenarioError('medium fault %d' % number, ('medium', name), may_of(name, MEDIUM[name]))
    seen: dict[tuple[int, int], int] = {}
    for index, loss in enumerate(tables.get('loss', [])):
        pair = loss['from'], loss['to']
        for name in 'from', 'to':
            if loss[name] >= len(tables['mote']):
                may = '`%s`: a mote, 0 to %d' % (name, len(tables['mote']) - 1)
                raise ScenarioError('medium fault 4', ('loss', index, name), may)
        if pair[0] == pair[1]:
            raise ScenarioError('medium fault 4', ('loss', index, 'to'), '`to`: a mote other than %d' % pair[0])
        if loss['every'] == 0:
            raise ScenarioError('medium fault 4', ('loss', index, 'every'), may_of('every', LOSS['every']))
        if pair in seen:
            may = 'another pair of motes: loss %d, counted from 0, has %d and %d already' % (seen[pair], *pair)
            raise ScenarioError('medium fault 4', ('loss', index), may)
        seen[pair] = index


def _read(data: bytes) -> dict[str, Any]:
    """The tables of a scenario."""
    if len(data) > LONGEST_TEXT:
        front = data[:LONGEST_TEXT]
        line = front.count(b'\n') + 1, len(front[front.rfind(b'\n') + 1:].decode('utf-8', 'replace'))
        raise ScenarioError('scenario too long', line=line, may='the end of the text')
    try:
        text = data.decode('utf-8')
    except UnicodeDecodeError as fault:
        begin = data.rfind(b'\n', 0, fault.start) + 1
        line = data.count(b'\n', 0, begin) + 1, len(data[begin:fault.start].decode('utf-8'))
        raise ScenarioError(NOT_TEXT, line=line, may='text in UTF-8') from None
    try:
        tables = read_toml(text)
    except NoToml as fault:
        raise ScenarioError('scenario fault 1', line=(fault.line, fault.column),
                            may='TOML (%s)' % fault.shown) from None
    for path in _too_large(tables, ()):
        raise ScenarioError('scenario fault 1', path, may='a whole number of 64 bits')
    return tables


def _too_large(value: object, path: Path) -> Iterator[Path]:
    """The places of numbers with more than 64 bits, which only Python accepts as TOML."""
    if type(value) is int and not -2 ** 63 <= value < 2 ** 63:
        yield path
    members = value.items() if type(value) is dict else enumerate(value) if type(value) is list else []
    for name, member in members:
        yield from _too_large(member, path + (name,))


def check_tables(tables: dict[str, Any]) -> None:
    """Raises the first fault of the tables of a scenario, without the rules of its medium and of its programs."""
    is_second = type(tables.get('version')) is int and tables['version'] == 2
    _check_table(tables, (), {**TOP, 'queue': QUEUES} if is_second else TOP)
    _check_table(tables['medium'], ('medium',), {**MEDIUM, 'collide': COLLIDE} if is_second else MEDIUM)
    for index, loss in enumerate(tables.get('loss', [])):
        _check_table(loss, ('loss', index), LOSS)
    _check_programs(tables['programs'])
    _check_queue(tables.get('queue', {}))
    for index, mote in enumerate(tables['mote']):
        _check_table(mote, ('mote', index), MOTE)
    _check_names(tables)


def tables_of(data: bytes) -> dict[str, Any]:
    """The tables of a scenario whose programs needn't be right. Raises a `ScenarioError` for any other text."""
    tables = _read(data)
    check_tables(tables)
    check_medium(tables)
    return tables


def find_fault(data: bytes) -> ScenarioError | None:
    """The first fault of a scenario, or None if it has none."""
    try:
        tables = _read(data)
        check_tables(tables)
        _check_texts(tables['programs'])
        check_medium(tables)
    except ScenarioError as fault:
        return fault
    return None
