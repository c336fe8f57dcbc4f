"""The claims that a scenario has in the comments at its head, as the page without a server writes them:

    # expect: mote 1: at least 1 line "recv sender 0 value 42" at 2
"""
from __future__ import annotations

import re
from collections.abc import Sequence
from pathlib import Path

from motesim.judge.verdicts import NoVerdict, answers
from motesim.runner import Limits
from motesim.scenario.refused import check

HEAD = re.compile(r'(?:[ \t]*(?:#.*)?\n)*')
EXPECT = re.compile(r'# expect: *(.*?)[ \t]*')


def own_claims(text: str) -> list[str]:
    """The claims in the comments before the first key or table."""
    head = HEAD.match(text)
    return [found[1] for row in (head[0] if head else '').split('\n') if (found := EXPECT.fullmatch(row))]


def expect_own(scenario: Path, text: str, claims: Sequence[str], limits: Limits = Limits(), faults: Sequence[str] = ()
               ) -> tuple[int, int]:
    """Prints which claims hold in the run with these faults; returns how many hold and how many don't."""
    try:
        lines = answers(text.encode(), claims, limits=limits, faults=faults)[:len(claims)]
    except NoVerdict:
        # (a scenario that is refused has its own message)
        check(str(scenario), text.encode())
        raise
    broken = [line for line in lines if line.startswith('broken: ')]
    for line, claim in zip(lines, claims, strict=True):
        why = line.partition(' -- ')[2]
        print('broken  %s\n          %s' % (claim, why) if line in broken else 'holds   %s' % claim)
    return len(lines) - len(broken), len(broken)
