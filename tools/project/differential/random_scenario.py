"""Random scenarios: random programs in a random net."""
from __future__ import annotations

import random
import re
from collections import Counter

from project.differential.random_program import RandomProgram

PROGRAM_NAMES = ('p', 'q', 'sink', 'A-b_9', 'list', 'process', 'node')
LIMITS = ('events', 'semaphores', 'processes', 'variables', 'timers', 'threads', 'statements', 'levels')
QUEUES = (1, 1, 2, 3, 4, 5, 8, 31, 32, 33, 128)
LIMIT_EACH = 20


def random_scenario(seed: int | str, reached: Counter[str] | None = None) -> bytes:
    """The scenario of a seed; its features are counted in `reached`."""
    reached = Counter() if reached is None else reached
    chance = random.Random(seed)
    limit = _limit_of(str(seed))
    names = chance.sample(PROGRAM_NAMES, chance.choice([1, 1, 1, 2, 2, 3]))
    programs = {name: RandomProgram(chance, reached, limit if name == names[0] else '').text() for name in names}
    version = chance.choice([1, 2, 2])
    reached['version %d' % version] += 1
    lines = ['version = %d' % version, 'end = %d' % _end(chance, limit), '[medium]',
             *_medium(chance, version, reached),
             '[programs]']
    for name, text in programs.items():
        lines += ["%s = '''" % name, text.rstrip('\n'), "'''"]
    if version == 2 and chance.random() < 0.6:
        lines.append('[queue]')
        for name in chance.sample(names, chance.randint(1, len(names))):
            length = chance.choice(QUEUES)
            reached['queue of %d' % length] += 1
            lines.append('%s = %d' % (name, length))
    motes = 1 if limit else chance.choice([1, 1, 2, 2, 2, 3, 3, 4, 5, 8, 14])
    for _ in range(motes):
        lines += ['[[mote]]', 'x = %d' % chance.randint(-6, 6), 'y = %d' % chance.randint(-6, 6),
                  'program = "%s"' % chance.choice(names)]
    pairs = [(s, r) for s in range(motes) for r in range(motes) if s != r]
    for s, r in chance.sample(pairs, min(len(pairs), chance.choice([0, 0, 1, 2, 5]))):
        reached['loss'] += 1
        lines += ['[[loss]]', 'from = %d' % s, 'to = %d' % r, 'every = %d' % chance.choice([1, 1, 2, 2, 3, 7])]
    return ('\n'.join(lines) + '\n').encode()


def _limit_of(seed: str) -> str:
    """The limit that a scenario reaches, or ''. Each limit occurs once in 160 consecutive seeds."""
    digits = re.search('[0-9]*$', seed)
    number = int(digits[0]) if digits and digits[0] else 1
    return LIMITS[number // LIMIT_EACH % len(LIMITS)] if number % LIMIT_EACH == 0 else ''


def _end(chance: random.Random, limit: str) -> int:
    """The end: usually an early moment, because a busy mote writes many lines in every moment."""
    if limit:
        return chance.choice([0, 1, 5])
    return chance.choice([0, 1, 2, 5, 8, 12, 12, 20, 20, 20, 30, 30])


def _medium(chance: random.Random, version: int, reached: Counter[str]) -> list[str]:
    lines = ['range = %d' % chance.choice([0, 3, 6, 10, 10, 20, 100_000]),
             'base = %d' % chance.choice([1, 1, 1, 2, 3, 9]),
             'per = %d' % chance.choice([1, 5, 20, 100, 100, 1_000_000])]
    if version == 2:
        collide = chance.random() < 0.5
        reached['collide %s' % str(collide).lower()] += 1
        lines.append('collide = %s' % str(collide).lower())
    return lines
