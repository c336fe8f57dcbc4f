"""Why a report breaks a sentence: the words and the line of `motecheck`, and what the report has.

Sentences about texts, which no claim can say, are the only ones that are decided here.
"""
from __future__ import annotations

from collections.abc import Sequence
from typing import NamedTuple

from motesim.judge.breaks import Break
from motesim.judge.claim_words import ALL, Test
from motesim.judge.finder import Event, Finder, Row
from motesim.judge.links import Span
from motesim.judge.meaning import MediumLine, Refused, Sentence
from motesim.scenario.fields import in_words

# The tests that compare the values of two deeds.
OF_VALUES = ('same', 'each')


class Lack(NamedTuple):
    """Motes that have too few lines in an interval: the number of lines that they have, and the wanted one."""
    motes: tuple[int, ...]
    span: Span
    found: int
    wanted: int


class Broken(NamedTuple):
    """The reason why a sentence doesn't hold.

    why    the reason in words
    row    the row of the report that shows it, from 1, or None
    lacks  the motes that have too few lines, if lines are missing
    kind   text, fewer (cases than wanted), spare (a case too many), or the kind of the `Test` that doesn't hold
    shows  what the row is
    """
    why: str
    row: int | None = None
    lacks: Lack | None = None
    kind: str = 'text'
    shows: str = ''

    @property
    def words(self) -> str:
        """The reason, as it stands above the row."""
        return '; '.join(filter(None, [self.why, self.shows]))


def reason_of(it: Break, finder: Finder) -> Broken:
    """The reason of a break."""
    test = it.test
    if test is None:
        return Broken(it.words, kind='fewer')
    kind = 'spare' if it.is_spare else test.kind
    numbers = [] if it.is_spare or test.kind in OF_VALUES else [finder.number(what) for what in test.counted]
    why = it.words
    if numbers and None not in numbers:
        why += ', but there %s %s' % ('is' if numbers == [1] else 'are', ' and '.join(map(str, numbers)))
    why += ''.join('; %s: %s' % (name, ', '.join(value + in_words(finder.scenario.fields, int(value))
                                                  for value in values.split(', ')))
                   for name, values in zip(('missing', 'superfluous'), it.of_values) if values)
    row, shows = _shown(it, test, finder)
    if row or it.is_spare or test.deed is None:
        return Broken(why, row, None, kind, shows)
    later = finder.next(test.deed) if numbers != [None] else None
    motes, spans = tuple(mote for mote, _ in test.deed.watches), [span for _, span in test.deed.watches]
    found = 0 if None in numbers else len(finder.counted(test.own))
    lacks = Lack(motes, spans[0] if spans else ALL, found, max(test.least, 1))
    return Broken(why, later.row if later else None, lacks, kind, 'the next is' if later else '')


def _shown(it: Break, test: Test, finder: Finder) -> tuple[int | None, str]:
    """The row that breaks a sentence, and what it is: the line of the break, or else one of those that are counted."""
    if it.line:
        return finder.row(*it.line), ('the line that meets it is' if it.is_spare else
                                      "the first that isn't is" if test.kind == 'every' else 'one too many is')
    if test.kind == 'each':
        return _of_values(it, test, finder)
    rows, most = finder.counted(test.own), test.limits[1]
    if rows and (it.is_spare or test.kind in ('ratio', 'same')):
        return rows[-1].row, 'the last such line is'
    if test.kind == 'number' and most is not None and len(rows) > most:
        return rows[most].row, 'one too many is'
    wrong = unwanted(rows, test) if test.values else None
    return (wrong.row, 'the first that differs is') if wrong else (None, '')


def _of_values(it: Break, test: Test, finder: Finder) -> tuple[int | None, str]:
    """The first line whose value too few lines have, or the last one of those that are too many."""
    missing, superfluous = ({int(value) for value in part.split(', ') if value} for part in it.of_values)
    few, many = ([line for line in finder.lines(deed) if line.line.value in values]
                 for deed, values in zip(test.deeds, (missing, superfluous)))
    if few:
        return few[0].row, 'the first line whose value is missing is'
    return (many[-1].row, 'the last of those that are too many is') if many else (None, '')


def unwanted(lines: Sequence[Event | Row], test: Test) -> Event | Row | None:
    """The first line whose value isn't the next one that a test wants; of values in any order, isn't one of those
    left."""
    left = list(test.values)
    for it in lines[-1:] if test.kind == 'last' else lines:
        fits = [wanted for wanted in (left if test.kind == 'set' else left[:1])
                if isinstance(it, Event) and it.line.value in wanted]
        if not fits:
            return it
        left.remove(fits[0])
    return None


def of_text(it: Sentence, finder: Finder) -> Broken | None:
    """What breaks a sentence about a text in a scenario that has a report; None for all other sentences."""
    if isinstance(it, Refused):
        return Broken('the program writes a report')
    if not isinstance(it, MediumLine) or any(
            tuple(str(packet).split(' ')[:len(it.words)]) == it.words for packet in finder.report.log):
        return None
    return Broken('the medium has no such line', finder.report.medium_row)
