"""Adapts sentences to a scenario whose motes have new numbers."""
from __future__ import annotations

from motesim.judge.names import Names
from motesim.judge.sentences import motes_named


def follow(sentence: str, names: Names, removed: frozenset[int]) -> str | None:
    """The sentence with the numbers that motes have after others are removed, or None if it names a removed mote.

    The ends of a range, such as `motes 3 to 7`, may be removed as long as one mote of the range stays.
    """
    named = motes_named(sentence, names)
    new: dict[int, int] = {}
    at = 0
    while at < len(named):
        place, mote = named[at]
        if at + 1 < len(named) and sentence[place + len(str(mote)):named[at + 1][0]].strip() == 'to':
            left = [it for it in range(mote, named[at + 1][1] + 1) if it not in removed]
            if not left:
                return None
            new[place], new[named[at + 1][0]] = left[0], left[-1]
            at += 2
            continue
        if mote in removed:
            return None
        new[place] = mote
        at += 1
    for place, mote in sorted(new.items(), reverse=True):
        digits = next(index for index in range(place, len(sentence) + 1) if not sentence[index:index + 1].isdecimal())
        sentence = sentence[:place] + str(mote - sum(it < mote for it in removed)) + sentence[digits:]
    return sentence


def names_motes_in_quotes(sentence: str) -> bool:
    """Returns whether a sentence quotes a line of the report, whose numbers of motes can't be followed."""
    return any(mark in sentence for mark in ('\'', '`'))
