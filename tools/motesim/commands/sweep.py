"""Runs a plan with many values of its parameters, and measures each run.

  tools/sweep net.plan.toml --param gap=10,20,40 --param seed=1..30 --measure sent --measure ratio -o net.csv

The tool makes a run for each combination of the values. Each run has a row with its parameters and measures in net.csv.
If you start the same command again, the tool makes only the missing runs. After Ctrl-C the finished rows stay in the
file. A run with an error has a row with the error. If a measure fails, its cell is empty, and the row has a note. A
plan can have values and measures in its table `sweep`: --param replaces the plan's values of the same parameter, and
--measure adds to the plan's measures. --plot draws what the plan's `plot` describes.

The forms of values are 10,20,40 (these numbers), 1..30 (all whole numbers from 1 to 30), and 0..100..25 (0, 25, 50, 75
and 100). With `name = MEASURE` the column of a measure gets this name. The measures are:
  sent, ratio, collided, ..     a column of tools/summary, for the net
  sent of mote 3                a column of tools/summary, for one mote
  reachable                     the share of the motes that packets of mote 0 can reach, directly or through others,
                                if no packet is lost
  loss                          the share of the copies that are lost by the scenario's losses
  holds: no mote halts          1 if this expectation of tools/expect holds, otherwise 0
  moment: every mote prints flood 1
                                the first moment at which each mote has printed it
  last: EXPECTATION             the moment of the last line that the expectation is about
  count: EXPECTATION            the number of lines that the expectation is about
  motes: EXPECTATION            the number of motes that do what the expectation says
  delay: mote 0 sends 1 -> every mote but 0 prints flood 1
                                the time from the first event to the second event; lines of the second event that are
                                earlier than the first event don't count
  delivery: motes 1 to 9 print source -> mote 0 prints sink
                                the share of the messages that are delivered. Each line of the first expectation is a
                                message. It is delivered if a line of the second one with the same value follows.
                                Messages on the way at the end count as lost. With `every mote` or `motes 1 to 9` in
                                the second expectation, each pair of a message and a mote counts; with `some mote`, a
                                message needs a line from only one of the motes
  python: measures.py:energy    the result of your function in a file next to the plan; its argument is the run

docs/use/EXPERIMENTS.md shows a sweep from its beginning to a plot, and describes all measures.

The tool ends with status 0, with 1 if a row has an error or lacks a measure, with 2 if nothing could be done, and with
130 after Ctrl-C.
"""
from __future__ import annotations

from motesim.command import command
from motesim.words import Words, add_jobs, add_limits, add_parameter, words_of

# The limit of a report, in megabytes: that of motesim.experiments.asked.
REPORT = 200


def parser() -> Words:
    words = words_of(__doc__)
    words.add_argument('plan', metavar='PLAN', help='a plan, a TOML file')
    add_parameter(words, 'values of a parameter')
    words.add_argument('--measure', action='append', default=[], metavar='MEASURE', help='a measure of a run')
    words.add_argument('-o', dest='output', metavar='FILE', help='the results (NAME.csv, next to NAME.plan.toml)')
    add_jobs(words)
    add_limits(words, None, None, REPORT, 'that of the plan, or 60')
    words.add_argument('--dask', metavar='ADDRESS', help='send the runs to the Dask scheduler at this address')
    words.add_argument('--renew', action='store_true',
                       help='repeat the runs of rows that are older than a change of the plan, of motesim or of a '
                            'measure')
    words.add_argument('--retry', action='store_true', help='repeat runs with an error or without a measure')
    words.add_argument('--plot', action='store_true', help="draw what the plan's `plot` describes")
    return words


@command('sweep')
def main() -> int:
    asked = parser().parse_args()
    from motesim.analysis.of_plan import plots_of
    from motesim.analysis.points import measures_in
    from motesim.experiments.sweep import status_of, sweeper_of
    sweeper = sweeper_of(asked)
    # (an error in a picture is reported before the runs, not after them)
    plots = plots_of(sweeper.plan, sweeper.head.parameters, measures_in(sweeper.head)) if asked.plot else []
    status = status_of(asked, sweeper)
    if plots and status in (0, 1):
        from motesim.analysis.command import draw_plan
        draw_plan(sweeper.path, asked.plan, plots)
    return status
