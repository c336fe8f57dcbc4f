"""Shows a measure of a sweep.

  tools/plot net.csv --measure ratio --against gap                           a table: medians with quartiles
  tools/plot net.csv --measure ratio --against gap --show mean               means with confidence intervals
  tools/plot net.csv --measure ratio --against motes --by gap -o ratio.pdf
  tools/plot net.csv --measure delay --against sent                          a measure on each axis
  tools/plot net.csv --measure ratio --pair gap=20,40                        the difference of runs with equal seeds
  tools/plot net.csv --plan net.plan.toml                                    what the plan's `plot` describes

RESULTS is a file that tools/sweep wrote. Each point of a picture, or row of a table, has the runs with equal values of
--against and --by. The runs of a point may differ only in `seed` and in parameters whose names end in `_seed` or, with
--over, only in the parameters that it names. If they differ in another parameter, the tool refuses to mix them.

--csv writes the table for pandas, R or a spreadsheet. Next to a picture the tool writes its table, NAME.table.csv; the
first line has the command and the digests of the results and of motesim. Pictures need matplotlib (on Debian: apt-get
install python3-matplotlib). docs/use/EXPERIMENTS.md explains all options with examples.

The tool ends with status 0, or with 2 after an error.
"""
from __future__ import annotations

from motesim.command import command
from motesim.words import Once, Words, add_table, words_of


def parser() -> Words:
    from motesim.analysis.plots import OPTIONS
    words = words_of(__doc__)
    words.register('action', None, Once)
    words.add_argument('results', metavar='RESULTS', help='a file that tools/sweep wrote')
    for it in OPTIONS:
        names = [{'file': '-o', 'where': '--param'}.get(it.name, '--' + it.name)]
        if isinstance(it.default, bool):
            words.add_argument(*names, dest=it.name, action='store_true', help=it.help)
        elif isinstance(it.default, tuple):
            words.add_argument(*names, dest=it.name, action='append', default=[], metavar=it.form, help=it.help)
        else:
            kind = float if it.name == 'confidence' else str
            words.add_argument(*names, dest=it.name, type=kind, default=it.default, metavar=it.form, help=it.help)
    add_table(words, 'csv', 'write the table in CSV')
    words.add_argument('--plan', metavar='PLAN', help="show what this plan's `plot` describes")
    return words


@command('plot')
def main() -> int:
    asked = parser().parse_args()
    from motesim.analysis.command import status_of
    from motesim.output import output_to
    with output_to(asked.csv, [asked.results, asked.plan]):
        return status_of(asked)
