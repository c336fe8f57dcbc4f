"""Opens a page on which you write a protocol and see its run at once.

The page is served on this machine only. Without FILE.toml the page shows the example flooding.toml. Ctrl-C ends the
studio. docs/use/DEBUGGING.md describes the page.
"""
from __future__ import annotations

from motesim.command import command
from motesim.words import Words, add_faults, add_limits, words_of

# The limits of a run.
SECONDS, MEMORY, REPORT = 10, 1024, 16


def parser() -> Words:
    words = words_of(__doc__)
    words.add_argument('file', nargs='?', metavar='FILE.toml',
                       help="a scenario; if the file doesn't exist, the studio begins a new scenario with this name")
    words.add_argument('--against', metavar='OTHER.toml',
                       help='open the page at the first difference from the run of this scenario')
    add_faults(words, "FILE.toml's run")
    words.add_argument('--no-open', action='store_true', help='print the address, and open no browser')
    add_limits(words, SECONDS, MEMORY, REPORT)
    return words


@command('studio')
def main() -> int:
    asked = parser().parse_args()
    from motesim.studio.command import status_of
    return status_of(asked)
