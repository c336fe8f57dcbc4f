"""What is said about a search and its results."""
from __future__ import annotations

from collections.abc import Iterator
from pathlib import Path

from motesim.cells import aligned
from motesim.judge.claim_words import motes_text
from motesim.surveys.cuts import Cut
from motesim.surveys.kinds import KINDS, Kinds
from motesim.surveys.searching import Found, Result

# The most sets that are shown for each expectation.
SHOWN = 10


def counted(number: int, one: str, many: str) -> str:
    return '{:,} {}'.format(number, one if number == 1 else many)


def cut_in_words(cut: Cut) -> str:
    """What a set of faults cuts off."""
    return '%s, so no protocol can deliver' % '; '.join(
        'no path is left from mote %d to %s' % (origin, motes_text(motes)) for origin, motes in cut.items())


def kinds_in_words(kinds: Kinds) -> str:
    """The kinds of faults, with their values."""
    return '; '.join(KINDS[kind][1].partition(',')[0] + (': ' + values if values else '')
                     for kind, values in kinds.items())


def any_of(size: int) -> str:
    """The sets of up to this size, in words."""
    return {0: 'without a fault', 1: 'with any one fault'}.get(size, 'with any %d faults' % size)


def lines_of(result: Result) -> Iterator[str]:
    """What was left out, the kinds of faults, and the sets that are covered."""
    for text in result.broken:
        yield 'broken without a fault, so left out (tools/expect shows why): %s' % text
    for text, why in result.unsaid.items():
        yield 'left out, because no claim can say it (%s): %s' % (why, text)
    yield 'faults: %s' % kinds_in_words(result.asked.kinds)
    yield result.survey.said if result.survey else 'covered: nothing'


def verdict_lines(result: Result, shows_all: bool) -> Iterator[str]:
    """The expectations that hold, and the sets that break the others."""
    if result.holding:
        yield from ('', ('not broken so far, %s:' if result.ended_by else 'holds %s:') % any_of(result.covers))
        yield from ('  ' + it for it in result.holding)
    numbers = {text: number for number, text in enumerate(result.asked.texts, 1) if result.least(text)}
    if numbers:
        yield from ('', 'broken:')
        yield from ('  %d  %s%s' % (number, text, bears(result, text)) for text, number in numbers.items())
        yield from ('', *table_of(result, numbers, shows_all))


def bears(result: Result, text: str) -> str:
    """With how many faults a broken expectation holds, if it holds with any one of them."""
    least = result.least(text)
    return ' (it holds %s)' % any_of(len(least.faults) - 1) if least and len(least.faults) > 1 else ''


def table_of(result: Result, numbers: dict[str, int], shows_all: bool) -> Iterator[str]:
    """A row for each set: the numbers of the expectations that it breaks, the missing lines, and the faults; and a row
    for what it cuts off."""
    left = dict.fromkeys(numbers, SHOWN)
    rows, has_lines = list[tuple[str, str, str]](), any(severity_of(it) for it in result.found)
    for it in result.found:
        if not shows_all and not any(left[text] for text in it.expectations):
            continue
        left.update((text, max(0, left[text] - 1)) for text in it.expectations)
        rows.append((', '.join(str(numbers[text]) for text in it.expectations), severity_of(it), with_moments(it)))
        rows += [('', '', '  ' + cut_in_words(it.cut))] if it.cut else []
    head = ('breaks', 'missing', 'faults, the worst first' if has_lines else 'faults')
    yield from aligned([row if has_lines else row[::2] for row in (head, *rows)], range(3), '  ')
    shown = sum(bool(row[0]) for row in rows)
    if shown < len(result.found):
        yield 'and %s (--all shows them)' % counted(len(result.found) - shown, 'more set', 'more sets')


def severity_of(it: Found) -> str:
    """The number of missing lines, such as `3 of 8`; an empty text if no line is wanted."""
    return '{:,} of {:,}'.format(*it.measured.lacks) if it.measured and it.measured.lacks.wanted else ''


def with_moments(it: Found) -> str:
    """The faults, with the moments at which their packets are sent in this run."""
    moments = it.measured.moments if it.measured else [None] * len(it.faults)
    return '; '.join(fault + (' (sent at %d)' % at if at is not None else '') for fault, at in zip(it.faults, moments))


def result_line(result: Result) -> str:
    """How many expectations hold, and with how many faults."""
    broken = sum(result.least(text) is not None for text in result.wanted)
    said = '%d of %d expectations hold %s' % (len(result.holding), len(result.wanted), any_of(result.covers))
    said += ', %d %s broken' % (broken, 'is' if broken == 1 else 'are') if broken else ''
    return said + '; {:,} runs'.format(result.runs)


def last_lines(result: Result, folder: Path, scenario: Path) -> Iterator[str]:
    """How many expectations hold, and where the counter-examples are, to the scenario in a file."""
    if result.covers < 0:
        yield 'nothing is covered, so nothing is known: %s' % result.ended_by
        return
    yield result_line(result)
    if result.found:
        count = sum(bool(it.file) for it in result.found)
        yield '%s in %s, with the table found.csv; `tools/studio %s --faults FILE` opens one' % (
            counted(count, 'counter-example is', 'counter-examples are'), folder, scenario)
    if result.ended_by:
        yield 'NOT ALL WAS TRIED: %s' % result.ended_by
