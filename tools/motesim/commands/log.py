"""Shows the lines of all motes in one chronological log.

Each line shows the moment, the mote, the line number in the report, and what happened. EXPECTATION, such as "motes 3 to
7 print flood 2", selects the lines that it is about. Without EXPECTATION and options the tool shows all lines."""
from __future__ import annotations

from motesim.command import command
from motesim.words import Words, add_expectation, add_faults, add_table, one_of, words_of


def parser() -> Words:
    words = words_of(__doc__)
    words.add_argument('file', metavar='FILE', help='a scenario, or a report; - is standard input')
    words.add_argument('sentence', metavar='EXPECTATION', nargs='?', help='show the lines that this is about')
    words.add_argument('--scenario', metavar='FILE', help="if FILE is a report: its scenario, which EXPECTATION needs")
    add_faults(words)
    words.add_argument('--mote', metavar='LIST', help='show the lines of these motes, such as 3,5-7')
    words.add_argument('--kind', metavar='LIST', help='show the lines of these kinds, such as send,recv')
    words.add_argument('--value', metavar='N', type=int,
                       help="show the lines with the value N, or with an event's word N")
    words.add_argument('--from', dest='first', metavar='MOMENT', type=int, default=0, help='leave out earlier lines')
    words.add_argument('--to', dest='last', metavar='MOMENT', type=int, help='leave out later lines')
    form = words.add_mutually_exclusive_group()
    add_table(form, 'csv', 'write a table in CSV, with a row for each line')
    add_table(form, 'json', 'write a JSON object for each line')
    add_expectation(words, 'the same as EXPECTATION')
    return words


@command('log')
def main() -> int:
    asked = parser().parse_intermixed_args()
    from motesim.output import output_to
    from motesim.causes.log import status_of
    asked.sentence = one_of(asked.sentence, asked.expect)
    with output_to(asked.csv or asked.json, [asked.file, asked.scenario]):
        return status_of(asked)
