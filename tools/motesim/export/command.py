"""Writes a run as tables, or a scenario in C. tools/export is the command."""
from __future__ import annotations

import argparse
import sys
from collections.abc import Iterator
from pathlib import Path

from motesim.contiki.folder import write_folder
from motesim.export.tables import TABLES, table
from motesim.files import refuse_inputs, write_whole
from motesim.output import beside
from motesim.report.run import read_run
from motesim.scenario.encodings import read_file


def export_c(path: str, folder: str | None, with_host: bool) -> Iterator[Path]:
    """Writes a scenario as a folder of C files."""
    name = 'scenario' if path == '-' else Path(path).stem
    yield from write_folder(read_file(path), path, Path(folder or beside(path, name + '_contiki')), with_host)


def export_tables(path: str, output: str | None) -> Iterator[Path]:
    """Writes a run as tables; the names of their files begin with `output`."""
    begin = output or str(beside(path, 'run' if path == '-' else Path(path).stem))
    paths = {name: Path('%s.%s.csv' % (begin, name)) for name in TABLES}
    for it in paths.values():
        if not output and it.is_file():
            print('%s is replaced' % it, file=sys.stderr)
        refuse_inputs(it, [path])
    report = read_run(path).report
    for name, it in paths.items():
        write_whole(it, (line.encode() for line in table(report, name)))
        yield it


def status_of(asked: argparse.Namespace) -> int:
    """The work of tools/export; returns the status."""
    for written in (export_tables(asked.file, asked.output) if asked.to == 'csv' else
                    export_c(asked.file, asked.output, asked.host)):
        print(written)
    return 0
