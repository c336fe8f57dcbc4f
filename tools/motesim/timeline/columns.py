"""The columns of a run in the form that a page needs: numbers, compressed by zlib. `page/data.js` reads them.

    table, packed = data_of(run)
"""
from __future__ import annotations

import sys
import zlib
from array import array
from collections.abc import Iterator
from operator import sub
from typing import Any

from motesim.faults import Fault
from motesim.report import LOST, Log, Report
from motesim.report.columns import NONE
from motesim.report.run import Run
from motesim.scenario import Scenario
from motesim.scenario.fields import in_words

ALL = 0xFFFF
LEVEL = 5
ARRAYS = {'u8': 'B', 'u16': 'H', 'u32': 'I'}
TOO_LARGE = 'the report has a number that is too large for a page'


class Columns:
    """The columns of a run. `names` has the columns in their order, each with its kind of number."""
    names = {'traceStart': 'u32', 'at': 'u32', 'x': 'u32', 'packetAt': 'u32', 'copyAfter': 'u32', 'w': 'u16',
             'p': 'u16', 'e': 'u16', 'begins': 'u16', 'packetSender': 'u16', 'packetValue': 'u16', 'copyCount': 'u16',
             'copyTo': 'u16', 'kind': 'u8'}

    def __init__(self, report: Report):
        self.columns = {name: array(ARRAYS[kind]) for name, kind in self.names.items()}
        trace = report.trace
        processes, events = trace.processes(), trace.words_of('event')
        self.processes = [name for name in trace.names if name in processes and name != 'all']
        self.events = [name for name in trace.names if name in events]
        self.programs = list(dict.fromkeys(mote.program for mote in report.motes))
        try:
            self._add_traces(report)
            self._add_medium(report.log, len(report.motes))
        except OverflowError:
            raise Fault(TOO_LARGE) from None

    def _add_traces(self, report: Report) -> None:
        """The lines of all motes. A line without a process has its sender in the column of processes, or 0."""
        columns, trace = self.columns, report.trace
        columns['traceStart'].extend(trace.starts)
        columns['begins'].extend(self.programs.index(mote.program) for mote in report.motes)
        columns['kind'].frombytes(trace.kind)
        columns['at'].extend(trace.at)
        columns['x'].extend(iter(trace.number))
        columns['w'].extend(trace.value)
        processes = {NONE: 0, **_places(trace.names, self.processes)}
        columns['p'].extend(processes[it] or sender for it, sender in zip(trace.process, trace.sender))
        events = {NONE: 0, **_places(trace.names, self.events)}
        columns['e'].extend(map(events.__getitem__, trace.event))

    def _add_medium(self, log: Log, motes: int) -> None:
        """The packets with their copies. A lost copy has the time 0."""
        columns = self.columns
        sent = [0] * motes
        for sender, number in zip(log.sender, log.number):
            if number != sent[sender]:
                raise Fault('the packets of mote %d are not numbered 0, 1, 2, ..' % sender)
            sent[sender] += 1
        columns['packetAt'].extend(log.at)
        columns['packetSender'].extend(iter(log.sender))
        columns['packetValue'].extend(log.value)
        columns['copyCount'].extend(map(sub, log.first[1:], log.first))
        columns['copyTo'].extend(iter(log.to))
        columns['copyAfter'].extend(0 if arrival == LOST else arrival - at
                                    for arrival, at in zip(log.arrival, log.of_copies(log.at)))

    def parts(self) -> Iterator[bytes]:
        """All columns one after another, each at a multiple of 4."""
        for column in self.columns.values():
            if sys.byteorder == 'big':
                column = column[:]
                column.byteswap()
            yield column.tobytes()
            yield bytes(-len(column) * column.itemsize % 4)

    def joined(self) -> bytes:
        """All columns, joined to one."""
        return b''.join(self.parts())

    def packed(self) -> bytes:
        """All columns, compressed."""
        packer = zlib.compressobj(LEVEL)
        return b''.join([*map(packer.compress, self.parts()), packer.flush()])

    def table(self) -> list[list[Any]]:
        """The name, the kind of number and the length of each column."""
        return [[name, kind, len(self.columns[name])] for name, kind in self.names.items()]


def _places(names: list[str], chosen: list[str]) -> dict[int, int]:
    """The number of each chosen name by its place in the report; that of others is ALL."""
    numbers = {name: number for number, name in enumerate(chosen)}
    return {place: numbers.get(name, ALL) for place, name in enumerate(names)}


def _last_moment(report: Report) -> int:
    """The last moment at which anything was written or sent: the end of a run whose scenario isn't known."""
    starts, at = report.trace.starts, report.trace.at
    moments = [at[end - 1] for begin, end in zip(starts, starts[1:]) if begin < end]
    return max(moments + list(report.log.at[-1:]), default=0)


def _of_scenario(scenario: Scenario | None) -> dict[str, Any]:
    """The parts of a scenario that the page shows: places, range, losses."""
    if scenario is None:
        return {'places': None}
    return {
        'places': [[place.x, place.y] for place in scenario.places], 'range': scenario.range, 'base': scenario.base,
        'per': scenario.per, 'collide': scenario.collide,
        'losses': [[sender, to, every] for (sender, to), every in scenario.losses.items()],
    }


def fields_of(run: Run) -> dict[str, dict[int, str]]:
    """The fields of each value that a mote printed or sent, if the format of packets is declared."""
    fields = run.scenario.fields if run.scenario else ()
    values = {*run.report.log.value, *run.report.trace.of['print']['value']} if fields else ()
    return {'fields': {it: in_words(fields, it) for it in sorted(values)}} if fields else {}


def table_of(run: Run, columns: Columns) -> dict[str, Any]:
    """The table of names and numbers that the page needs besides the columns of a run."""
    end = run.scenario.end if run.scenario else _last_moment(run.report)
    return {
        'name': run.name, 'end': max(end, _last_moment(run.report)), 'left': run.report.left,
        'programs': columns.programs, 'processes': columns.processes, 'events': columns.events,
        'columns': columns.table(), **_of_scenario(run.scenario), **fields_of(run),
    }


def data_of(run: Run) -> tuple[dict[str, Any], bytes]:
    """The data of a run for a page: a table of names and numbers, and packed columns."""
    columns = Columns(run.report)
    return table_of(run, columns), columns.packed()
