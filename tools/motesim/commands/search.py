"""Finds the faults that break the expectations of a scenario.

  tools/search examples/flooding.toml --links --silent --at-most 2

The proved program `motecheck` tries all single faults, then all pairs, and so on, up to --at-most faults at once. For
each smallest set of faults that breaks an expectation, the tool writes a file of faults into the folder NAME.search,
or into the folder that -o names; all tools take such a file with --faults. The expectations are those of tools/expect.
If no file is named, they are in NAME.expect.toml next to the scenario NAME.toml.

Without an option for a kind of faults, the tool tries --links, --silent and --lost. Other values, places, losses or
lengths of queues are parameters of a plan: tools/sweep measures runs with them, and tools/scenario writes one of its
scenarios, which can be searched.

docs/use/TESTING.md begins with a protocol that looks right, and explains what the result of a search means.

The tool ends with status 0 if all expectations hold with all sets of faults, 1 if one is broken, 2 if there is no
result or a limit was reached before one was broken, and 130 after Ctrl-C.
"""
from __future__ import annotations

from motesim.command import command
from motesim.surveys.kinds import add_kinds
from motesim.words import Words, add_expectation, add_jobs, add_limits, add_table, whole_above_0, words_of

# The limits of a run: those of motesim.surveys.searching.
SECONDS, REPORT = 10.0, 16


def parser() -> Words:
    words = words_of(__doc__)
    words.add_argument('scenario', nargs='?', metavar='SCENARIO', help='a scenario, NAME.toml')
    words.add_argument('expectations', nargs='?', metavar='EXPECTATIONS',
                       help='the expectations (NAME.expect.toml next to the scenario)')
    add_expectation(words)
    add_kinds(words)
    words.add_argument('--at-most', type=int, choices=range(256), metavar='K',
                       help='the greatest number of faults in one run (1)')
    words.add_argument('--how-many', action='store_true',
                       help='try larger and larger sets, until each expectation is broken or --at-most is reached')
    words.add_argument('--most-runs', type=whole_above_0, metavar='N',
                       help='try sets in at most N runs')
    words.add_argument('--most-seconds', type=float, metavar='N',
                       help='end the search after N seconds')
    add_limits(words, SECONDS, None, REPORT)
    add_jobs(words)
    words.add_argument('-o', dest='output', metavar='FOLDER', help='the folder of the written files (NAME.search)')
    add_table(words, 'csv', 'write a table of the sets that break an expectation')
    add_table(words, 'json', 'write all results in JSON')
    words.add_argument('--all', action='store_true',
                       help='show all sets that break an expectation, not only ten for each expectation')
    words.add_argument('--studies', nargs='+', metavar='FILE',
                       help='make the searches in these files, and check that their results are those in the files')
    return words


@command('search')
def main() -> int:
    words = parser()
    asked = words.parse_intermixed_args()
    if asked.scenario is None and not asked.studies:
        words.error('the following arguments are required: SCENARIO')
    from motesim.surveys.command import status_of
    return status_of(asked)
