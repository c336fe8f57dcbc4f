"""Totals of a report by mote, for the net and by link. tools/summary is the command."""
from __future__ import annotations

import argparse
import csv
import json
import sys
from collections import Counter
from collections.abc import Iterator
from itertools import repeat
from operator import add, mul
from typing import Any

from motesim.cells import aligned
from motesim.report.moments import collided
from motesim.summary.columns import LINKS
from motesim.summary.flows import NAMES as FLOW_NAMES
from motesim.summary.flows import doubts, flow_rows
from motesim.summary.shares import share
from motesim.report import KINDS, LOST, OUTCOMES, Report
from motesim.report.run import Run, read_run
from motesim.scenario import Scenario
from motesim.scenario.fault_text import faults_asked

# A row of a table, by the names of the columns: numbers, names, or None if there is no value.
Row = dict[str, Any]

LINK_NAMES = [*LINKS]
# The lines of a trace that are only counted.
COUNTED = {'post': 'posted', 'take': 'taken', 'drop': 'dropped', 'full': 'refused', 'print': 'prints'}


def ratio(row: Row) -> float | None:
    """The share of the due copies that were received, or None if no copy was due."""
    return share(row['received'], row['copies'] - row['left'])


def copies_row(counts: Counter[Any], key: object) -> Row:
    """The outcomes of the copies that are counted under a key."""
    row: Row = {'copies': sum(counts[key, what] for what in OUTCOMES)}
    row.update((what, counts[key, what]) for what in OUTCOMES)
    row['ratio'] = ratio(row)
    return row


def row_of(report: Report, became: Counter[Any], key: object, begin: int, end: int) -> Row:
    """The counts of the lines from one to another, with the outcomes of the copies that are counted under a key."""
    counts = {kind: report.trace.kind.count(code, begin, end) for code, kind in enumerate(KINDS)}
    return {'sent': counts['send'], **copies_row(became, key), **{name: counts[kind] for kind, name in COUNTED.items()}}


def of_motes(report: Report) -> list[Row]:
    """A row for each mote."""
    became, starts = Counter(zip(report.log.to, map(OUTCOMES.__getitem__, report.fates))), report.trace.starts
    return [{'mote': it.number, 'program': it.program,
             **row_of(report, became, it.number, *starts[it.number:it.number + 2]),
             'halt': it.halted()} for it in report.motes]


def of_net(report: Report) -> Row:
    """The sums of the motes' rows. `halt` is the number of motes that halted."""
    became = Counter({('net', OUTCOMES[code]): count for code, count in Counter(report.fates).items()})
    return {'mote': 'net', 'program': '', **row_of(report, became, 'net', 0, len(report.trace)),
            'halt': report.trace.kind.count(KINDS.index('halt'))}


# A link: its sender and its receiver.
Link = tuple[int, int]


def links_of(report: Report) -> Iterator[int]:
    """The link of each copy as a number: the sender's number times the number of motes, plus the receiver's number."""
    log = report.log
    return map(add, log.of_copies(map(mul, log.sender, repeat(len(report.motes)))), log.to)


def counted_links(report: Report) -> Counter[tuple[Link, str]]:
    """The number of copies of each link with each outcome."""
    motes, kinds = len(report.motes), len(OUTCOMES)
    counts = Counter(map(add, map(mul, links_of(report), repeat(kinds)), report.fates))
    return Counter({(divmod(key // kinds, motes), OUTCOMES[key % kinds]): count for key, count in counts.items()})


def delays_of(report: Report, links: set[Link]) -> dict[Link, int | None]:
    """The delay of each link: that of the first copy that wasn't lost, or None."""
    log, motes = report.log, len(report.motes)
    delays: dict[Link, int | None] = dict.fromkeys(links)
    left = {sender * motes + to for sender, to in links}
    for link, sent, arrival in zip(links_of(report), log.of_copies(log.at), log.arrival):
        if link in left and arrival != LOST:
            delays[divmod(link, motes)] = arrival - sent
            left.remove(link)
            if not left:
                break
    return delays


def by_link(report: Report, scenario: Scenario | None, became: Counter[tuple[Link, str]]) -> list[Row]:
    """A row for each link on which a copy was sent, and for all links of a scenario."""
    delays = delays_of(report, {link for link, _ in became})
    if scenario:
        for s in range(scenario.motes):
            delays.update(((s, r), scenario.delay(s, r)) for r in scenario.hearers(s))
    return [{'from': link[0], 'to': link[1], **copies_row(became, link), 'delay': delays[link]}
            for link in sorted(delays)]


def summary(run: Run) -> tuple[list[Row], Row, list[Row]]:
    """The rows of the motes, that of the net, and those of the links."""
    report = run.report
    return of_motes(report), of_net(report), by_link(report, run.scenario, counted_links(report))


def shown(value: int | float | str | None) -> str:
    """A value in a table of text."""
    return '-' if value is None else '%.3f' % value if type(value) is float else str(value)


def table(rows: list[Row], names: list[str]) -> Iterator[str]:
    """The rows in columns."""
    texts = [names, *([shown(value) for value in row.values()] for row in rows)]
    return aligned(texts, [place for place, name in enumerate(names) if name == 'program'])


def write_csv(rows: list[Row], names: list[str]) -> None:
    """The rows, with the names of the columns above them; a cell without a value is empty."""
    writer = csv.DictWriter(sys.stdout, names, lineterminator='\n')
    writer.writeheader()
    writer.writerows(rows)


def show(asked: argparse.Namespace, rows: list[Row], names: list[str], parts: dict[str, Any]) -> int:
    """Prints rows in the chosen form; `parts` is the object for JSON."""
    if asked.json:
        print(json.dumps(parts, indent=1))
    elif asked.csv:
        write_csv(rows, names)
    else:
        print('\n'.join(table(rows, names)))
    return 0


def show_flow(run: Run, asked: argparse.Namespace) -> int:
    """Shows the rows of a flow, and why it has nothing to show or may mislead."""
    rows = flow_rows(run.report, run.scenario, asked.flow)
    for line in doubts(run.report, run.scenario, asked.flow):
        print('summary: %s' % line, file=sys.stderr)
    return show(asked, rows, FLOW_NAMES, {'flow': asked.flow, 'origins': rows[:-1], 'net': rows[-1]})


def status_of(asked: argparse.Namespace) -> int:
    """Prints the summary; returns the status."""
    run = read_run(asked.report, asked.scenario, faults=faults_asked(asked))
    if asked.flow is not None:
        return show_flow(run, asked)
    motes, net, links = summary(run)
    of_moments = collided(run.report)
    if of_moments:
        print('summary: %d of the %d collided copies collided with another packet that their sender sent at the same '
              'moment; tools/explain names these motes' % (of_moments, net['collided']), file=sys.stderr)
    parts = {'motes': motes, 'net': {name: value for name, value in net.items() if name not in ('mote', 'program')},
             'links': links}
    if asked.links and (asked.csv or asked.json or links):
        return show(asked, links, LINK_NAMES, {'links': links})
    if not asked.links:
        show(asked, motes + [net], list(net),
             {name: its for name, its in parts.items() if not (asked.motes and name == 'links')})
    if not (asked.json or asked.csv or asked.motes):
        lines = table(links, LINK_NAMES) if links else ['no link carried anything']
        print('\n'.join([*[''] * (not asked.links), *lines]))
    return 0
