"""Counts what happened in a run, for each mote, the net and each link.

FILE is a report, or a scenario, which is run; `-` is standard input. `--scenario FILE` names the scenario of a
report: then links that carried nothing are shown too.

A line on standard error counts the copies that collided with another packet that their sender had sent at the same
moment. The columns of a mote, and of the net:
{motes}
A link has its two motes, the columns `copies` to `ratio`, and `delay`: {delay}.

`--flow "print sink"` shows flows from end to end instead: each line `print sink V` is a delivery of the message V. The
message begins with the first packet that has the value V. The mote that sends this packet is the origin of the message.
With `--flow "print source -> print sink"` the message begins with the first line `print source V` instead. The columns
of an origin, and of the net:
{flows}

`--motes` and `--links` show only one of the tables. `--csv` writes one table for a spreadsheet: the table of motes, or
with `--links` the table of links. `--json` writes all tables in JSON.

The tool ends with status 0, or with 2 if the report can't be read.
"""
from __future__ import annotations

from motesim.command import command
from motesim.summary.columns import FLOWS, LINKS, MOTES, described
from motesim.words import Words, add_faults, add_table, words_of


def parser() -> Words:
    words = words_of((__doc__ or '').format(delay=LINKS['delay'], motes=described(MOTES), flows=described(FLOWS)))
    words.add_argument('report', metavar='FILE', help='a report, or a scenario; - is standard input')
    words.add_argument('--scenario', metavar='FILE', help='if FILE is a report: its scenario')
    add_faults(words)
    form = words.add_mutually_exclusive_group()
    add_table(form, 'csv', 'write one table in CSV')
    add_table(form, 'json', 'write all tables in JSON')
    part = words.add_mutually_exclusive_group()
    part.add_argument('--motes', action='store_true', help='show only the table of motes and the net')
    part.add_argument('--links', action='store_true', help='show only the table of links')
    part.add_argument('--flow', metavar='WORDS', help='show flows from end to end, such as "print sink"')
    return words


@command('summary')
def main() -> int:
    asked = parser().parse_args()
    from motesim.output import output_to
    from motesim.summary.counts import status_of
    with output_to(asked.csv or asked.json, [asked.report, asked.scenario]):
        return status_of(asked)
