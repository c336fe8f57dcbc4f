"""Lines, packets and copies of a run as tables, for pandas and R."""
from __future__ import annotations

from collections.abc import Iterator

from motesim.report import Report
from motesim.cells import Cell, line_of

LINES = ('row', 'mote', 'program', 'at', 'kind', 'process', 'serial', 'event', 'word', 'sender', 'number', 'value')
PACKETS = ('row', 'at', 'sender', 'number', 'value', 'copies')
COPIES = ('at', 'sender', 'number', 'value', 'to', 'arrival', 'outcome')


def lines(report: Report) -> Iterator[list[Cell]]:
    """All lines of the traces, each with its place in the report, counted from 1."""
    for mote in report.motes:
        for row, it in enumerate(mote.lines, mote.row + 1):
            yield [row, mote.number, mote.program, it.at, it.kind, it.process, it.serial, it.event, it.word, it.sender,
                   it.number, it.value]


def packets(report: Report) -> Iterator[list[Cell]]:
    for row, it in enumerate(report.medium, report.medium_row + 1):
        yield [row, it.at, it.sender, it.number, it.value, len(it.copies)]


def copies(report: Report) -> Iterator[list[Cell]]:
    for packet, copy, what in report.outcomes():
        yield [packet.at, packet.sender, packet.number, packet.value, copy.to, copy.at, what]


TABLES = {'lines': (LINES, lines), 'packets': (PACKETS, packets), 'copies': (COPIES, copies)}


def table(report: Report, name: str) -> Iterator[str]:
    """A table in CSV, line by line; a cell without a value is empty."""
    columns, rows = TABLES[name]
    yield line_of(columns)
    for row in rows(report):
        yield line_of(row)
