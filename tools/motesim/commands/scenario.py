"""Writes a scenario from a plan, which describes places, programs and losses by rules.

  tools/scenario net.plan.toml -o net.toml
  tools/scenario net.plan.toml --param gap=20 --param seed=3 | ./run
  tools/scenario --from net.toml -o net.plan.toml            writes a plan that yields the net of net.toml

Without -o the scenario is written to standard output. The same plan, files and parameters always produce the same
bytes. docs/use/EXPERIMENTS.md describes plans.

The tool ends with status 0, or with 2 if the plan or a file next to it has an error; the message shows the place of
the error.
"""
from __future__ import annotations

from motesim.command import command
from motesim.words import Words, add_parameter, words_of


def parser() -> Words:
    words = words_of(__doc__)
    words.add_argument('plan', metavar='PLAN', nargs='?', help='a plan, a TOML file')
    words.add_argument('--from', dest='source', metavar='SCENARIO',
                       help='write a plan that yields the net of this scenario, and the files that the plan needs')
    add_parameter(words, 'change the value of a parameter: --param NAME=VALUE')
    words.add_argument('-o', dest='output', metavar='FILE',
                       help='the scenario to write (standard output); with --from, the plan to write (NAME.plan.toml)')
    return words


@command('scenario')
def main() -> int:
    words = parser()
    asked = words.parse_args()
    if (asked.plan is None) == (asked.source is None) or asked.source and asked.param:
        words.error('name a PLAN, or a scenario with --from')
    from motesim.plan.written import status_of
    return status_of(asked)
