"""Writes a run as tables, or a scenario in C.

  tools/export net.toml --to csv        net.lines.csv, net.packets.csv, net.copies.csv (pandas, R)
  tools/export net.toml --to contiki -o net_c         a folder of C files for a Contiki 2.x tree
  tools/export net.toml --to contiki -o net_c --host  the same folder, and a simulator in C for this machine

FILE is a scenario, which is run for tables, or a report for tables. docs/use/REPORT.md describes the tables, and
docs/use/KERNEL.md the C files.

The tool ends with status 0, or with 2 if a file can't be read or written.
"""
from __future__ import annotations

from motesim.command import command
from motesim.words import Words, words_of


def parser() -> Words:
    words = words_of(__doc__)
    words.add_argument('file', metavar='FILE', help='a scenario, or a report; - is standard input')
    words.add_argument('--to', choices=['csv', 'contiki'], required=True,
                       help='tables in CSV, or C files for Contiki 2.x')
    words.add_argument('-o', dest='output', metavar='NAME',
                       help="the beginning of the tables' names, or the folder of the C files; without -o, it is made "
                            "from FILE's name")
    words.add_argument('--host', action='store_true',
                       help='with --to contiki: add a simulator in C that runs the files')
    return words


@command('export')
def main() -> int:
    words = parser()
    asked = words.parse_args()
    if asked.host and asked.to != 'contiki':
        words.error('--host is for --to contiki')
    from motesim.export.command import status_of
    return status_of(asked)
