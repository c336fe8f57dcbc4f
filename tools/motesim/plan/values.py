"""The values of a parameter, as a command line names them."""
from __future__ import annotations

import re
from collections import Counter

from motesim.faults import Fault
from motesim.plan.tables import Value, text_of_value, value_of_text

MOST_RUNS = 100_000
RANGE = re.compile(r'(-?[0-9]{1,9})\.\.(-?[0-9]{1,9})(?:\.\.([0-9]{1,9}))?')


def named(words: str) -> tuple[str, str]:
    """The name and the values of a parameter, as `--param` has them: `period=10,20`."""
    name, sign, values = words.partition('=')
    if not sign or not name:
        raise Fault('--param needs NAME=VALUES, not %r' % words)
    return name, values


def values_of(words: str) -> list[Value]:
    """The values of a parameter: `10,20,40`, `1..30`, `0..100..25`, or texts."""
    found: list[Value] = []
    for part in words.split(','):
        numbers = RANGE.fullmatch(part.strip())
        if not numbers:
            found.append(value_of_text(part.strip()))
            continue
        begin, end, step = int(numbers[1]), int(numbers[2]), int(numbers[3] or 1)
        if begin > end or step < 1 or (end - begin) // step >= MOST_RUNS:
            raise Fault('%s are not values: a range goes upwards, and has at most %s values' % (
                part, '{:,}'.format(MOST_RUNS)))
        found += range(begin, end + 1, step)
    counts = Counter(map(text_of_value, found))
    if '' in counts:
        raise Fault('%r has an empty value: values are such as 10,20 or 1..30' % words)
    twice = next((value for value, count in counts.items() if count > 1), None)
    if twice is not None:
        raise Fault('%s has a value twice: %s' % (words, twice))
    return found
