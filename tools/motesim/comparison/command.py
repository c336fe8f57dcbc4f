"""The command tools/compare: prints how two runs diverge, and writes a page of their timelines."""
from __future__ import annotations

import argparse
from collections.abc import Callable

from motesim.comparison.reports import MEDIUM, MOST, Difference, compared, packet_of
from motesim.faults import Fault
from motesim.files import refuse_inputs
from motesim.report.run import Run, read_run
from motesim.scenario.fault_text import faults_asked


def write_html(write_page: Callable[..., None], path: str, a: Run, b: Run, first: Difference | None) -> None:
    """Writes both timelines, one above the other, from the first difference on."""
    mote = first.mote if first else None
    if first and first.mote == MEDIUM:
        mote = packet_of((a.report, b.report), first).sender
    write_page(path, '%s and %s' % (a.name, b.name), [a, b], first.at if first else None, mote)


def status_of(asked: argparse.Namespace, write_page: Callable[..., None]) -> int:
    """Prints the comparison; returns the status. `write_page` writes a page of timelines."""
    faults = faults_asked(asked)
    if asked.b is None and not faults:
        raise Fault('B is missing: another report or scenario, or a fault, with which A is run')
    other = asked.a if asked.b is None else asked.b
    if asked.a == other == '-':
        raise Fault('A and B can\'t both be standard input: one of them is a file')
    if asked.html:
        refuse_inputs(asked.html, [asked.a, asked.b], '--html')
    a, b = read_run(asked.a), read_run(other, faults=faults)
    lines, first, is_same = compared(a, b, MOST)
    if asked.html:
        write_html(write_page, asked.html, a, b, first)
    print('\n'.join(lines))
    return 0 if is_same else 1
