"""Writes a scenario in the form that docs/use/SCENARIO.md describes."""
from __future__ import annotations

import re
from collections.abc import Iterator, Mapping, Sequence
from typing import Any, NamedTuple

# What a literal string of several lines can't have.
NOT_LITERAL = re.compile(r"'''|[\x00-\x08\x0b-\x1f\x7f]")
ESCAPES = {'\\': '\\\\', '"': '\\"', '\n': '\\n', '\t': '\\t', '\r': '\\r'}


class Mote(NamedTuple):
    x: int
    y: int
    program: str


class Net(NamedTuple):
    """The contents of a scenario of version 2."""
    end: int
    range: int
    base: int
    per: int
    collide: bool
    programs: Mapping[str, str]
    queue: Mapping[str, int]
    motes: Sequence[Mote]
    losses: Mapping[tuple[int, int], int]


def escaped(text: str) -> str:
    """A text with escapes, for a basic string of TOML."""
    return ''.join(ESCAPES.get(sign) or ('\\u%04X' % ord(sign) if ord(sign) < 32 or ord(sign) == 127 else sign)
                   for sign in text)


def is_literal(text: str) -> bool:
    """Returns whether a literal string of several lines can have this text."""
    return NOT_LITERAL.search(text) is None


def _program(name: str, text: str) -> str:
    """A program: unchanged between quotes, or with escapes if that is impossible."""
    if is_literal(text) and text.endswith('\n'):
        return "%s = '''\n%s'''" % (name, text)
    return '%s = "%s"' % (name, escaped(text))


def _lines(net: Net) -> Iterator[str]:
    yield 'version = 2'
    yield 'end = %d' % net.end
    yield '[medium]'
    yield 'range = %d' % net.range
    yield 'base = %d' % net.base
    yield 'per = %d' % net.per
    yield 'collide = %s' % str(net.collide).lower()
    yield '[programs]'
    for name, text in sorted(net.programs.items()):
        yield _program(name, text)
    if net.queue:
        yield '[queue]'
        for name, length in sorted(net.queue.items()):
            yield '%s = %d' % (name, length)
    for mote in net.motes:
        yield '[[mote]]\nx = %d\ny = %d\nprogram = "%s"' % mote
    for (sender, to), every in sorted(net.losses.items()):
        yield '[[loss]]\nfrom = %d\nto = %d\nevery = %d' % (sender, to, every)


def tables_of(net: Net) -> dict[str, Any]:
    """The tables of the text, as a reader of TOML returns them."""
    return {'version': 2, 'end': net.end, 'programs': dict(sorted(net.programs.items())),
            'medium': {'range': net.range, 'base': net.base, 'per': net.per, 'collide': net.collide},
            'queue': dict(sorted(net.queue.items())), 'mote': [it._asdict() for it in net.motes],
            'loss': [{'from': sender, 'to': to, 'every': every} for (sender, to), every in sorted(net.losses.items())]}


def comment(line: str) -> str:
    """A line of comment, with only the characters that TOML allows there."""
    return '# ' + ''.join(sign if sign.isprintable() else '?' for sign in line)


def scenario_text(head: Sequence[str], net: Net) -> str:
    """The scenario, with these lines of comment above it."""
    return ''.join(line + '\n' for line in [*map(comment, head), *_lines(net)])
