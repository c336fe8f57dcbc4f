"""Compares two reports, and shows the first difference.

A and B are reports, or scenarios, which are run. If both are scenarios, the tool also lists the differences between the
scenarios. `tools/compare A --fault "mote 3 is silent"` compares the run of a scenario with its run with this fault.

The first difference between two reports is the one at the earliest moment; `diff` may show another one
first. The tool shows its moment and mote, the line of each report, and the last packets and events of this mote before
the difference. It also shows the first collision that only one of the two reports has, and the number of lines that
differ. `--html FILE` writes a page with one timeline above the other.

The tool ends with status 0 if the reports are the same, 1 if they differ, and 2 if A or B can't be read.
"""
from __future__ import annotations

from typing import Any

from motesim.command import command
from motesim.words import Words, add_faults, words_of


def write_page(*given: Any) -> None:
    """Writes a page of timelines."""
    from motesim.timeline.html import write_page
    write_page(*given)


def parser() -> Words:
    words = words_of(__doc__)
    words.add_argument('a', metavar='A', help='a report, or a scenario')
    words.add_argument('b', nargs='?', metavar='B', help='another report or scenario; with a fault, A itself')
    add_faults(words, "B's run")
    words.add_argument('--html', metavar='FILE',
                       help='write both timelines to this page, which opens at the first difference')
    return words


@command('compare')
def main() -> int:
    asked = parser().parse_args()
    from motesim.comparison.command import status_of
    return status_of(asked, write_page)
