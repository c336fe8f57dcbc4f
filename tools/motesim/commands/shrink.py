"""Makes a scenario that fails an expectation as small as possible.

  tools/shrink news.toml "mote 2 prints news 7" --fault "link 1 to 2 is broken" --fault "link 4 to 2 is broken"

The tool removes motes, losses, processes and statements, simplifies expressions, and makes numbers smaller. After each
step it runs the scenario, and keeps the step only if the expectation is still broken in the same way, for example with
too few lines, even up to the first end. But the cause may then differ from that in your scenario, and the tool says so.
Two options make this less likely:

  --fault FAULT        the expectation has to hold without the faults, and to be broken with them
  --keep EXPECTATION   this expectation has to hold after each step

If motes get other numbers, the tool changes their numbers in expectations and faults too. It leaves out faults that
aren't needed. If EXPECTATION is a file, the tool uses the first broken expectation in this file. Without EXPECTATION,
the file is NAME.expect.toml, next to the scenario NAME.toml.

The tool writes the result to NAME.small.toml, next to the scenario, with its expectation and its faults next to it,
and says so if it replaces an earlier result; it never replaces another file that you haven't named. In the result no
single further step is possible. A large net may need minutes. After Ctrl-C the tool writes the smallest scenario so
far, or no file if it has taken no step. docs/use/TESTING.md has an example.

The tool ends with status 0, with 2 after an error, for instance if the scenario doesn't break the expectation, and with
130 after Ctrl-C.
"""
from __future__ import annotations

import os
import signal
from types import FrameType

from motesim.command import command
from motesim.faults import INTERRUPTED
from motesim.words import Words, add_expectation, add_faults, add_limits, one_of, words_of

# The limit of a run: that of motesim.surveys.searching.
SECONDS = 10.0


def end_at_once(number: int, frame: FrameType | None) -> None:
    """Ends the tool. This handles Ctrl-C while Python reads the modules of the tool."""
    os.write(2, b'shrink: it was stopped before the first step, so no file is written\n')
    os._exit(INTERRUPTED)


def parser() -> Words:
    words = words_of(__doc__)
    words.add_argument('scenario', metavar='SCENARIO', help='a scenario, NAME.toml')
    words.add_argument('expectation', nargs='?', metavar='EXPECTATION',
                       help='an expectation of tools/expect, or a file of expectations')
    words.add_argument('-o', dest='output', metavar='FILE',
                       help='the result; by default NAME.small.toml, next to the scenario')
    words.add_argument('--keep', action='append', default=[], metavar='EXPECTATION',
                       help='an expectation that has to hold after each step')
    add_faults(words)
    add_limits(words, SECONDS, None, None)
    add_expectation(words, 'the expectation')
    return words


@command('shrink')
def main() -> int:
    asked = parser().parse_intermixed_args()
    # (an exception would be lost if it came during some parts of an import)
    before = signal.signal(signal.SIGINT, end_at_once)
    from motesim.surveys.shrink_command import status_of
    signal.signal(signal.SIGINT, before)
    asked.expectation = one_of(asked.expectation, asked.expect)
    return status_of(asked)
