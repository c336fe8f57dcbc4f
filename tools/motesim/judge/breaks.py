"""Reads what breaks a claim, as `motecheck` writes it behind ` -- `: `write_break` of crates/claim_text has the
grammar.

    not for mote 3: at most 2 lines "send" from 40 to 160; line 16 of mote 3, at 129, is one too many
    not for mote 0: the lines "print" have in any order exactly the values 1, 2, 3; missing: 2, 3; superfluous: 7
    also for mote 1: at least 1 line "recv"; line 5 of mote 1, at 2
    it wants more cases than it has
"""
from __future__ import annotations

import re
from typing import NamedTuple

from motesim.judge.claim_words import Claim, Test
from motesim.runner import ProgramFault

FEWER = 'it wants more cases than it has'
FORM = re.compile(
    r'(?:(?P<not>not)|also) for (?P<subject>[^;:]+): (?P<tests>[^;]+)'
    r'(?:; line (?P<line>\d+) of mote (?P<mote>\d+), at \d+(?(not), is one too many))?'
    r'(?P<values>(?:; missing: [\d, ]+)?(?:; superfluous: [\d, ]+)?)')


class UnknownBreak(ProgramFault):
    """A text that isn't a break of the claim."""

    def __init__(self, text: str, claim: Claim):
        super().__init__('motecheck has no such break of `%s`: %s' % (claim.text, text))


class Break(NamedTuple):
    """What breaks a claim.

    words  how many cases hold, the case, and the test in the words of the claim, with the names of processes
    test   the test that doesn't hold; or the first one of a case too many, which holds (`is_spare`). None if there are
           fewer cases than the claim wants.
    line   the mote of the line that shows it, and its number in the trace from 1, if there is one
    values  the missing and the superfluous values, in the words of motecheck, if it names any
    """
    words: str
    test: Test | None = None
    is_spare: bool = False
    line: tuple[int, int] | None = None
    values: str = ''

    @property
    def of_values(self) -> tuple[str, str]:
        """The missing and the superfluous values."""
        found = re.fullmatch(r'(?:; missing: ([\d, ]+))?(?:; superfluous: ([\d, ]+))?', self.values)
        return ('', '') if found is None else (found[1] or '', found[2] or '')


def read_break(text: str, claim: Claim) -> Break:
    """The break of a claim."""
    if text == FEWER:
        return Break(claim.fewer or FEWER)
    found = FORM.fullmatch(text)
    if not found:
        raise UnknownBreak(text, claim)
    subject, tests, is_spare = found['subject'], found['tests'], not found['not']
    line = (int(found['mote']), int(found['line'])) if found['line'] else None
    for case in claim.cases:
        for test in case.tests if case.subject == subject else ():
            if tests == (case.body() if is_spare else test.text(case.mote)):
                words = 'also for %s: %s' % (subject, case.body(True)) if is_spare else 'not for %s: %s' % (
                    subject, test.text(case.mote, True))
                return Break(_limits(claim, is_spare) + words, test, is_spare, line, found['values'])
    raise UnknownBreak(text, claim)


def _limits(claim: Claim, is_spare: bool) -> str:
    """How many cases hold, too few or too many, if a claim isn't about all or none of them."""
    (least, most), count = claim.limits, len(claim.cases)
    if is_spare:
        return 'more than %d of %d hold: ' % (most, count) if most else ''
    return 'fewer than %d of %d hold: ' % (least, count) if least < count else ''
