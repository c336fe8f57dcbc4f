"""Says of each claim about a run whether it holds.

  tools/expect examples/news.toml --claims >news.claims
  tools/motecheck --links --at-most 2 examples/news.toml news.claims

This runs motecheck with the same arguments. With an option that tries faults it surveys sets of them.
docs/use/EXPECTATIONS.md describes claims, and what an answer says.

The status is 0 if all claims hold, with all sets of a survey, 1 if not, and 2 if there is no result.
"""
from __future__ import annotations

import sys
from pathlib import Path

from motesim.command import become, command
from motesim.surveys.kinds import add_kinds
from motesim.words import Words, add_faults, words_of


def parser() -> Words:
    words = words_of(__doc__)
    words.add_argument('scenario', metavar='SCENARIO', help='a scenario, NAME.toml')
    words.add_argument('claims', metavar='CLAIMS', nargs='?', help='a file of claims, one in each line')
    add_faults(words)
    words.add_argument('--report', action='store_true', help='write the report of the run, without claims')
    add_kinds(words)
    words.add_argument('--at-most', metavar='K', help='the greatest number of faults in a set of a survey (1)')
    words.add_argument('--runs', metavar='N', help='the greatest number of runs of a survey')
    words.add_argument('--workers', metavar='N',
                       help='only of a compiled motecheck: share the work among N threads, 1 to 16')
    return words


@command('motecheck')
def main() -> int:
    asked = parser().parse_args()
    from motesim.report.run import refuse_others
    from motesim.runner.programs import CHECKER, program_path
    from motesim.scenario.encodings import read_file
    from motesim.scenario.refused import check
    program = program_path(CHECKER)
    # (a file that can't be used has the message of all tools; a pipe can be read only once)
    files = [it for it in (asked.scenario, asked.claims) if it and not Path(it).is_fifo()]
    texts = {it: read_file(it) for it in files if it != '/dev/stdin'}
    if asked.scenario in texts:
        refuse_others(asked.scenario)
        check(asked.scenario, texts[asked.scenario])
    become(program, [CHECKER, *sys.argv[1:]])
