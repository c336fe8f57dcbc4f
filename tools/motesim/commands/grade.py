"""Grades a folder of solutions.

  tools/grade answers task.expect.toml                                 each solution in its own net
  tools/grade answers task.expect.toml --net task.toml                 only each solution's program, in your net
  tools/grade answers task.expect.toml --net task.toml --hidden hidden.toml -o grades.html
  tools/grade answers task.expect.toml --net task.plan.toml --param seed=1..5

A solution is a scenario NAME.toml. With --net, a solution may also be a program NAME.mote. Of a scenario, the tool then
uses only the text of one program: the program that --program names, or the only one. So nobody gains by changing the
net. A plan has a net for each combination of the values in its table `sweep`; --param replaces those of a parameter in
the plans that --net names. With several nets, an expectation counts only if it holds in each of them. A net that
--hidden names counts like the other nets, but a page of grades doesn't show it.

The tool prints a table of grades, with a row for each entry of the folder. An error in one entry doesn't affect the
others. Each run has limits (--seconds of processor time, --memory, --report), and several runs are made at once
(--jobs). On a busy machine, a run may last 30 times its --seconds in real time. Then the solution isn't graded: grade
it again.

The tool ignores tables `[[change]]` of EXPECTATIONS, because they replace texts of one particular solution. -o writes
a page that links the first broken expectation of each solution to a timeline. --why NAME shows, for one solution, what
breaks each expectation. If `motesim` refuses the solution, --why shows the place of the error.

The tool ends with status 0; with 1 if a solution isn't graded; with 2 if the expectations or the nets can't be read.
"""
from __future__ import annotations

from pathlib import Path

from motesim.command import command
from motesim.words import Words, add_jobs, add_limits, add_parameter, add_table, words_of


def parser() -> Words:
    words = words_of(__doc__)
    words.add_argument('folder', metavar='FOLDER', type=Path, help='a folder with solutions')
    words.add_argument('expectations', metavar='EXPECTATIONS', type=Path, help='NAME.expect.toml')
    words.add_argument('--net', action='append', default=[], metavar='NET', type=Path,
                       help='run the programs in this net, a scenario or a plan; you can repeat the option')
    words.add_argument('--hidden', action='append', default=[], metavar='NET', type=Path,
                       help="run the programs in this net too, but don't show it on a page of grades")
    add_parameter(words, 'for the plans that --net names: the values of a parameter, such as seed=1..5')
    words.add_argument('--program', metavar='NAME', help='the program that the students write, if a net has several')
    add_limits(words, 20, 1024, 16)
    add_jobs(words)
    words.add_argument('-o', dest='output', metavar='PAGE', type=Path, help='write the grades as a page, NAME.html')
    add_table(words, 'csv', 'write the grades in CSV')
    words.add_argument('--why', metavar='NAME', help='show what breaks the expectations in one solution')
    return words


@command('grade')
def main() -> int:
    words = parser()
    asked = words.parse_args()
    if asked.output and asked.output.suffix != '.html':
        words.error('%s: a page of grades ends in .html, and --csv writes a table' % asked.output)
    from motesim.grading.command import status_of
    from motesim.output import output_to
    with output_to(asked.csv, [asked.expectations, *asked.net, *asked.hidden]):
        return status_of(asked)
