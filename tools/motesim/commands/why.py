"""Explains the cause of a line of a report: the chain of causes, back to the start of a mote.

QUESTION is an expectation, such as "mote 24 prints flood 2", or a line of the report; by default the first broken one
in NAME.expect.toml, next to NAME.toml. A line has one of these forms: 977, its number in the report; 24:977, its mote
and its number; or "24:64 print flood 1", its mote and its text, which begins with the moment, 64."""
from __future__ import annotations

import shlex

from motesim.command import command
from motesim.faults import Fault
from motesim.words import Words, add_expectation, add_faults, add_table, one_of, words_of


def parser() -> Words:
    words = words_of(__doc__)
    words.add_argument('file', metavar='FILE', help='a scenario, or a report; - is standard input')
    words.add_argument('question', metavar='QUESTION', nargs='?', help='an expectation, or a line of the report')
    words.add_argument('--scenario', metavar='FILE', help='if FILE is a report: its scenario')
    add_faults(words, "FILE's run")
    words.add_argument('--watch', metavar='WORD', nargs='+',
                       help='show the values of variables over time: --watch mote 3 newest, distance')
    words.add_argument('--state', metavar='WORD', nargs='+',
                       help='show the state of a mote: --state mote 3 at 46, or after a line: --state 3:114')
    add_table(words, 'json', 'write the result in JSON')
    add_expectation(words, 'an expectation as the question')
    words.add_argument('--short', action='store_true',
                       help='show only the first and the last line of the chain, and the lines that are later than '
                            'their cause')
    return words


@command('why')
def main() -> int:
    words = parser()
    asked, more = words.parse_known_intermixed_args()
    if any(it.startswith('-') for it in more):
        words.refuse(more)
    if more:
        raise Fault('the question has to be in quotes: tools/why %s' % shlex.join(
            [asked.file, ' '.join(filter(None, [asked.question, *more]))]))
    from motesim.output import output_to
    from motesim.causes.command import status_of
    asked.question = one_of(asked.question, asked.expect)
    with output_to(asked.json, [asked.file, asked.scenario]):
        return status_of(asked)
