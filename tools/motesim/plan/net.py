"""Makes the scenario of a plan: the places of its motes, their programs, and the losses."""
from __future__ import annotations

import re
from collections import Counter
from collections.abc import Iterator, Mapping, Sequence
from pathlib import PurePath
from typing import Any

from motesim.notation.faults import RULES
from motesim.notation.reader import find_fault
from motesim.plan import places
from motesim.plan.chance import Chance
from motesim.faults import Fault
from motesim.plan.places import Crowd, NoPlace, NotConnected, Point
from motesim.plan.files import CsvTable, Files
from motesim.plan.keys import (
    CORNER, LOSS_STREAM, LOSSES, MEDIUM, MOST_BYTES, MOST_LOSSES, MOST_MOTES, MOST_PLACE, OF_TABLE,
    OTHER, PLACES, TOP,
)
from motesim.plan.tables import Key, NoParameter, PlanFault, Tables, filled, needed, optional, shown, text_of_value
from motesim.plan.text import Mote, Net, scenario_text, tables_of
from motesim.scenario import Scenario
from motesim.scenario.encodings import decoded
from motesim.scenario.made import PARAMETERS
from motesim.scenario.places import Path, Place
from motesim.toml import MARK

# What no rule for losses does.
BY_CHANCE = ' (for losses by chance see docs/use/EXPERIMENTS.md)'


def files_of(tables: Tables, files: Files) -> list[str]:
    """The names of the files that a plan needs, as far as they are known."""
    found: set[str] = set()
    for array, key in ('places', 'program'), ('other', 'program'), ('loss', 'file'), ('places', 'file'):
        for path, table in tables.array(array):
            if type(table) is dict and type(table.get(key)) is str:
                name = str(tables.filled(table[key], path + (key,)))
                found.add(name)
                if (array, key) == ('places', 'file'):
                    found.update(files.column(name, 'program'))
    return sorted(found)


class Builder:
    """Makes the scenario of a plan, from tables in which the values of parameters are known."""

    def __init__(self, tables: Tables, files: Files) -> None:
        self.tables, self.files = tables, files
        self.top = self._top_of_plan()
        self.medium = self.tables.read(self.top['medium'], ('medium',), MEDIUM, 'The medium')
        self.rejected = 0  # nets that weren't connected
        self.drawing: Counter[str] = Counter()  # tables that draw numbers, by the name of their array
        self.programs: dict[str, str] = {}
        self.sources: dict[str, str] = {}

    def _top_of_plan(self) -> dict[str, Any]:
        """The keys at the top; tables and arrays are checked separately."""
        for name, key in TOP.items():
            if key.is_needed and name not in self.tables.top:
                rule = 'A plan needs the key `%s`, but it is missing.' % name
                raise self.tables.fault((), rule, key.may(name), False)
        return {name: self.tables.checked(self.tables.top[name], (name,), name, key)
                for name, key in TOP.items() if key.kind is not object and name in self.tables.top}

    def scenario(self) -> str:
        """The scenario's text."""
        return self.with_text()[1]

    def with_text(self) -> tuple[Scenario, str]:
        """The scenario, and its text."""
        motes = self.motes()
        losses = self.losses(motes)
        queue = self.queue()
        net = Net(self.top['end'], self.medium['range'], self.medium['base'], self.medium['per'],
                  self.medium['collide'], self.programs, queue, motes, losses)
        text = scenario_text(self.head(), net)
        if len(text.encode()) > MOST_BYTES:
            raise self.tables.fault((), 'The scenario would have %s bytes.' % '{:,}'.format(len(text.encode())),
                                    'a plan whose scenario has at most 1,048,576 bytes')
        return Scenario(tables_of(net)), text

    def head(self) -> list[str]:
        """The scenario's comment on its origin."""
        parameters = ', '.join('%s = %s' % (name, text_of_value(it)) for name, it in self.tables.parameters.items())
        files = files_of(self.tables, self.files)
        return ['Written by tools/scenario from the plan %s: change that, and not this file.' % self.tables.name,
                PARAMETERS + (parameters or 'none'),
                'Files beside the plan: %s' % (', '.join(files) or 'none'),
                'SHA-256 of the plan and these files: %s' % self.files.digest(self.tables.of_runs(), files)]

    def read_file(self, name: str, path: Path) -> str:
        """The text of a file next to the plan, which is named at a key."""
        try:
            data = self.files.read(name)
        except (Fault, ValueError) as fault:
            # (a ValueError: no file can have this name)
            raise self.tables.fault(path, 'The file can\'t be read: %s.' % fault,
                                    'the name of a file, relative to the folder of the plan') from None
        try:
            return decoded(name, data)
        except Fault as fault:
            raise self.tables.fault(path, '%s.' % fault, 'a file with a text in UTF-8') from None

    def rule(self, table: object, path: Path, rules: Mapping[str, Mapping[str, Key]], more: Mapping[str, Key],
             what: str) -> dict[str, Any]:
        """A table whose key `rule` determines its other keys."""
        may = ', '.join('`"%s"`' % it for it in rules) + (BY_CHANCE if rules is LOSSES else '')
        if type(table) is not dict:
            raise self.tables.fault(path, '%s is a table with a key `rule`.' % what, 'a table')
        if 'rule' not in table:
            raise self.tables.fault(path, '%s needs a `rule`.' % what, '`rule`: one of ' + may, False)
        name = self.tables.filled(table['rule'], path + ('rule',))
        if type(name) is not str or name not in rules:
            raise self.tables.fault(path + ('rule',), '%s has no such rule.' % what, may)
        keys = {'rule': needed(str), **rules[name], **more}
        return self.tables.read(table, path, keys, '%s by the rule `%s`' % (what, name))

    def program(self, file: str, path: Path) -> str:
        """The name of the program in a file; the program becomes one of the scenario's."""
        name = PurePath(file).stem
        if name in self.sources:
            if self.sources[name] != file:
                raise self.tables.fault(path, 'Another file, %s, has a program `%s` too.' % (
                    self.sources[name], name), 'a file of another name')
            return name
        if not re.fullmatch('[A-Za-z0-9_-]{1,32}', name):
            raise self.tables.fault(path, 'The name of the file, up to its last point, is the name of the program.',
                                    'a file whose name has 1 to 32 of `A-Z a-z 0-9 _ -` before the point')
        self.programs[name] = self.program_text(file, path)
        self.sources[name] = file
        return name

    def program_text(self, file: str, path: Path) -> str:
        """The program's text with the parameters filled in; a text that isn't a program is a fault."""
        source = self.read_file(file, path).removeprefix(MARK)
        try:
            text = filled(source, self.tables.parameters)
        except NoParameter as fault:
            line = source.count('\n', 0, fault.at)
            place = Place(line + 1, fault.at - (source.rfind('\n', 0, fault.at) + 1), len(fault.name) + 3)
            raise PlanFault(shown(file, source, place, 'The plan has no parameter `%s`.' % fault.name,
                                  self.tables.names())) from None
        fault_there = find_fault(text)
        if fault_there:
            name = file if text == source else '%s, with its parameters' % file
            token, rule = fault_there.token, '%s: %s' % RULES[fault_there.kind]
            raise PlanFault(shown(name, text, Place(token.line, token.column, len(token.text)),
                                  '%s tools/explain %s says more.' % (rule, file), ', '.join(fault_there.may)))
        return text

    def motes(self) -> list[Mote]:
        """The motes of all groups, in the order of the groups."""
        groups = self.tables.array('places')
        motes = [mote for path, table in groups for mote in self.group(table, path)]
        if not 1 <= len(motes) <= MOST_MOTES:
            raise self.tables.fault(('places',), 'The plan has %s motes.' % '{:,}'.format(len(motes)),
                                    'rules for 1 to 1,000 motes in all', False)
        for path, table in self.tables.array('other'):
            values = self.tables.read(table, path, OTHER, 'An `other`')
            name = self.program(values['program'], path + ('program',))
            for number in self.numbers(values['motes'], path + ('motes',), len(motes)):
                motes[number] = motes[number]._replace(program=name)
        self.programs = {name: self.programs[name] for name in {mote.program for mote in motes}}
        return motes

    def group(self, table: object, path: Path) -> list[Mote]:
        """The motes of one table of places."""
        more = {'program': optional(str, ''), **CORNER}
        values = self.rule(table, path, PLACES, more, 'A group of places')
        reach = self.medium['range'] if values.get('connected') else None
        names: list[str] = []
        try:
            points = self.points(values, path, reach, names)
        except NoPlace as fault:
            may = 'fewer motes, a larger area, a smaller `least`, or another `seed`'
            if isinstance(fault, NotConnected):
                may = 'more motes, a smaller area, a larger `range` of the medium, or another `seed`'
            raise self.tables.fault(path, str(fault), may, False) from None
        if not names:
            if not values['program']:
                raise self.tables.fault(path, 'A group of places needs the key `program`.',
                                        '`program`: a file next to the plan', False)
            names = [self.program(values['program'], path + ('program',))] * len(points)
        motes = [Mote(x + values['x'], y + values['y'], name) for (x, y), name in zip(points, names)]
        for number, mote in enumerate(motes):
            if max(abs(mote.x), abs(mote.y)) > MOST_PLACE:
                raise self.tables.fault(path, 'Mote %d of this group would be at (%d, %d).' % (
                    number, mote.x, mote.y), 'a rule whose places are from -30,000 to 30,000 in x and y', False)
        return motes

    def points(self, values: Mapping[str, Any], path: Path, reach: int | None, names: list[str]) -> list[Point]:
        """The places of a group. If they name programs themselves, these are added to `names`. Counts the nets that
        were rejected."""
        rule, most = values['rule'], MOST_MOTES
        count = values.get('columns', 1) * values.get('rows', 1) * values.get('count', 1)
        if count > most:
            raise self.tables.fault(path, 'This group has %s motes.' % '{:,}'.format(count), 'at most 1,000', False)
        if rule == 'grid':
            return places.grid(values['columns'], values['rows'], values['step'])
        if rule == 'line':
            return places.grid(values['count'], 1, values['step'])
        if rule == 'ring':
            return places.ring(values['count'], values['radius'])
        if rule == 'list':
            return self.listed(values['at'], path + ('at',))
        if rule == 'csv':
            return self.places_of_csv(values, path, names)
        found = places.scattered(values['count'], values['width'], values['height'], values['seed'], values['least'],
                                 reach, self.stream_of('places', 0))
        self.rejected += found.rejected
        return found.points

    def stream_of(self, array: str, first: int) -> int:
        """The stream of random numbers of the next table of an array that draws them."""
        self.drawing[array] += 1
        return first + OF_TABLE * (self.drawing[array] - 1)

    def listed(self, rows: list[Any], path: Path) -> list[Point]:
        points = list[Point]()
        for index, row in enumerate(rows):
            its = [self.tables.filled(it, path) for it in row] if type(row) is list else []
            if len(its) != 2 or not all(type(it) is int for it in its):
                raise self.tables.fault(path, 'Place %d of the list is not two whole numbers.' % index,
                                        'an array of pairs, `[[0, 0], [10, 0]]`')
            points.append((its[0], its[1]))
        return points

    def places_of_csv(self, values: Mapping[str, Any], path: Path, names: list[str]) -> list[Point]:
        points, at = [], path + ('file',)
        for row in self.csv_table(values['file'], at, ('x', 'y'), ('program',)).rows():
            points.append((row.number('x', CORNER['x']), row.number('y', CORNER['y'])))
            named = row.values.get('program') or values['program']
            if not named:
                raise row.fault('There is no program for this mote.',
                                'a column program with the name of a file, or the key `program` in the plan')
            names.append(self.program(named, at))
        return points

    def csv_table(self, file: str, path: Path, columns: Sequence[str], more: Sequence[str] = ()) -> CsvTable:
        return CsvTable(file, self.read_file(file, path), columns, more)

    def numbers(self, value: object, path: Path, count: int) -> list[int]:
        """Motes by their numbers: one number, an array of numbers, or a text such as `0, 3 to 5` or `3 and 7`."""
        value = self.tables.filled(value, path)
        found: list[int] = []
        for part in value if type(value) is list else re.split(',| and ', str(value)):
            words = re.fullmatch(r'\s*([0-9]{1,4})(?:\s+to\s+([0-9]{1,4}))?\s*', str(part))
            begin, end = (int(words[1]), int(words[2] or words[1])) if words else (1, 0)
            if not begin <= end < count:
                raise self.tables.fault(path, 'These are not motes of the plan.',
                                        'numbers of motes, 0 to %d, as in `"0, 3 to 5"` or `"3 and 7"`' % (count - 1))
            found += range(begin, end + 1)
        return found

    def queue(self) -> dict[str, int]:
        """The lengths of event queues, by program."""
        table = self.top.get('queue', {})
        for name in table:
            if name not in self.programs:
                raise self.tables.fault(('queue', name), 'No mote runs a program of this name.',
                                        ', '.join('`%s`' % it for it in sorted(self.programs)), False)
        key = needed(int, 1, 128)
        return {name: self.tables.checked(value, ('queue', name), name, key) for name, value in table.items()}

    def losses(self, motes: list[Mote]) -> dict[tuple[int, int], int]:
        """The packets that are lost, for each link with a loss. If several rules are about a link, the last counts."""
        found: dict[tuple[int, int], int] = {}
        rules = self.tables.array('loss')
        links = sorted(self.links(motes)) if rules else []
        for path, table in rules:
            values = self.rule(table, path, LOSSES, {}, 'A loss')
            found.update(self.losses_of_rule(values, path, motes, links))
            if len(found) > MOST_LOSSES:
                raise self.tables.fault(path, 'With this rule %s links have losses.' % '{:,}'.format(len(found)),
                                        'rules for at most 10,000 links in all', False)
        return found

    def links(self, motes: list[Mote]) -> Iterator[tuple[int, int]]:
        """Each pair of a sender and a mote that hears it."""
        reach = self.medium['range']
        crowd = Crowd(reach)
        at: dict[Point, list[int]] = {}
        for number, mote in enumerate(motes):
            at.setdefault((mote.x, mote.y), []).append(number)
        for point in at:
            crowd.add(point)
        for number, mote in enumerate(motes):
            for point in crowd.near((mote.x, mote.y)):
                if places.squared(point, (mote.x, mote.y)) <= reach * reach:
                    yield from ((number, other) for other in at[point] if other != number)

    def losses_of_rule(self, values: Mapping[str, Any], path: Path, motes: list[Mote],
                       links: list[tuple[int, int]]) -> dict[tuple[int, int], int]:
        rule = values['rule']
        if rule == 'link':
            return {self.pair(values['from'], values['to'], path, len(motes)): values['every']}
        if rule == 'csv':
            return self.losses_of_csv(values['file'], path + ('file',), len(motes))
        every: int = values['every']
        if rule == 'all':
            return dict.fromkeys(links, every)
        if rule == 'longer':
            least = values['than'] ** 2
            return {(s, r): every for s, r in links if places.squared(motes[s][:2], motes[r][:2]) > least}
        chance = Chance(values['seed'], self.stream_of('loss', LOSS_STREAM))
        return {link: every for link in links if chance.below(values['one_in']) == 0}

    def pair(self, sender: int, to: int, path: Path, count: int) -> tuple[int, int]:
        if sender == to or max(sender, to) >= count:
            raise self.tables.fault(path, 'A loss is between two motes of the plan, and not from %d to %d.' % (
                sender, to), 'numbers of two motes, 0 to %d' % (count - 1), False)
        return sender, to

    def losses_of_csv(self, file: str, path: Path, count: int) -> dict[tuple[int, int], int]:
        found: dict[tuple[int, int], int] = {}
        for row in self.csv_table(file, path, ('from', 'to', 'every')).rows():
            sender, to, every = (row.number(name, key) for name, key in LOSSES['link'].items())
            if sender == to or max(sender, to) >= count:
                raise row.fault('This is not a link between two motes.', 'numbers of two motes, 0 to %d' % (count - 1))
            found[sender, to] = every
        return found
