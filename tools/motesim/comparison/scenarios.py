"""The differences of two scenarios, in words."""
from __future__ import annotations

from collections.abc import Iterator
from difflib import SequenceMatcher
from itertools import zip_longest

from motesim.scenario import Scenario

KEYS = 'version', 'end', 'range', 'base', 'per', 'collide'


def facts_of(it: Scenario) -> dict[str, str]:
    """What a scenario says besides its programs, each fact by its name."""
    found = {name: str(getattr(it, name)).lower() for name in KEYS} | {'the number of motes': str(it.motes)}
    for mote, place in enumerate(it.places):
        found['the place of mote %d' % mote] = '(%d, %d)' % place[:2]
        found['the program of mote %d' % mote] = place.program
    found |= {'the loss from %d to %d' % link: 'every %d' % every for link, every in it.losses.items()}
    return found | {'queue of program %s' % name: str(length) for name, length in it.queue.items()}


def of_text(name: str, a: str, b: str) -> Iterator[str]:
    """The first line of a program's text that differs, without the blanks around it, and how many lines only one of the
    texts has, as `diff` counts them."""
    rows = a.split('\n'), b.split('\n')
    row, one, other = next((row, *pair) for row, pair in enumerate(zip_longest(*rows), 1) if pair[0] != pair[1])
    same = sum(it.size for it in SequenceMatcher(None, *rows, autojunk=False).get_matching_blocks())
    only = [len(its) - same for its in rows]
    if only == [1, 1]:
        yield 'program %s differs in its line %d' % (name, row)
    else:
        yield 'program %s: %d lines only in A, %d only in B; the first is line %d' % (name, only[0], only[1], row)
    for letter, line in ('A', one), ('B', other):
        yield '  %s: %s' % (letter, 'it has no such line' if line is None else line.strip() or '(an empty line)')


def differences(a: Scenario, b: Scenario) -> Iterator[str]:
    """The differences of two scenarios; none if their runs can't differ."""
    one, other = facts_of(a), facts_of(b)
    for name in one | other:
        if one.get(name) != other.get(name):
            yield '%s is %s in A and %s in B' % (name, one.get(name, 'none'), other.get(name, 'none'))
    for name in sorted(a.programs | b.programs):
        if name not in a.programs or name not in b.programs:
            yield 'only %s has a program %s' % ('A' if name in a.programs else 'B', name)
        elif a.programs[name] != b.programs[name]:
            yield from of_text(name, a.programs[name], b.programs[name])


def in_words(a: Scenario, b: Scenario, most: int) -> list[str]:
    """The differences as lines of text, at most this many, below a heading."""
    lines = list(differences(a, b))
    if not lines:
        return ['The scenarios are the same.']
    more = ['  and %d more lines' % (len(lines) - most)] if len(lines) > most else []
    return ['The scenarios differ:', *('  ' + it for it in lines[:most]), *more]
