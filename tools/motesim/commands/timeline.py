"""Makes an HTML page of a run: a map of the motes, and for each mote a lane over time.
FILE is a scenario, which is run, or a report."""
from __future__ import annotations

from pathlib import Path

from motesim.command import command
from motesim.words import Words, add_faults, words_of


def parser() -> Words:
    words = words_of(__doc__)
    words.add_argument('file', metavar='FILE',
                       help='a scenario or a report; - is standard input')
    words.add_argument('--scenario', metavar='FILE',
                       help='if FILE is a report: its scenario, which has the places of the motes')
    add_faults(words)
    words.add_argument('-o', dest='page', metavar='PAGE',
                       help='the page to write; by default NAME.html, next to FILE, unless FILE is one of the '
                            'repository, such as an example: then in the current folder, or in out/')
    words.add_argument('--title', help='the title of the page; by default the name of the file')
    return words


@command('timeline')
def main() -> int:
    asked = parser().parse_args()
    from motesim.files import refuse_inputs
    from motesim.judge.expectations import fields_beside
    from motesim.output import made_beside
    from motesim.report.run import read_run
    from motesim.scenario.fault_text import faults_asked
    from motesim.timeline.html import write_page
    name = 'run' if asked.file == '-' else Path(asked.file).stem
    page = asked.page or str(made_beside(asked.file, name + '.html'))
    refuse_inputs(page, [asked.file, asked.scenario])
    run = read_run(asked.file, asked.scenario, faults=faults_asked(asked))
    if run.scenario:
        run.scenario.fields = fields_beside(asked.scenario or asked.file)
    write_page(page, asked.title or name, [run])
    print(page)
    return 0
