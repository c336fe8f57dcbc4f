"""Explains why a scenario has no report.

The tool runs the scenario. If `motesim` reports an error, the tool shows the message, the line with the error, a mark
under the error, the rule that this line breaks, and the words that are allowed there. If the tool can guess what you
meant, it also shows the corrected line. If the scenario has a report, the tool warns of parts that are legal but
probably not meant. Each warning has a name, and --silence leaves out the warnings of this name:

  tools/explain net.toml --silence never-started --silence out-of-range

--apply writes the corrected lines for you, one error after the other:

  tools/explain net.toml --apply mine.toml      corrects the scenario, as far as the messages show corrected lines
  tools/explain blink.mote --apply blink.toml   the same for a file with only a program, in a net of two motes

The tool ends with status 0 if the scenario has a report, 1 if an error is explained, and 2 if the file can't be read,
if the run reaches a limit, or if `motesim` isn't built. To use another `motesim`, name its file in the environment
variable MOTESIM.
"""
from __future__ import annotations

from motesim.explain.say import NAMES
from motesim.command import command
from motesim.words import Once, Words, add_limits, words_of


def parser() -> Words:
    words = words_of(__doc__)
    words.add_argument('file', metavar='FILE', help='a scenario, or with --apply also a program; - is standard input')
    words.add_argument('--apply', metavar='OUTPUT', action=Once,
                       help='write the scenario with the corrected lines to this file')
    words.add_argument('--silence', metavar='NAME', action='append', default=[], choices=NAMES,
                       help='leave out the warnings of this name (more than once for several names)')
    add_limits(words)
    return words


@command('explain')
def main() -> int:
    asked = parser().parse_args()
    from motesim.explain.applied import apply
    from motesim.explain.explanation import explain
    from motesim.explain.within import runs_within
    if asked.apply is not None:
        return apply(asked.file, asked.apply, runs_within(asked.apply, asked), asked.silence)
    return explain(asked.file, runs_within(asked.file, asked), asked.silence)
