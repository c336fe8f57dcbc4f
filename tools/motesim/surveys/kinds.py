"""The kinds of faults that a search tries: those of a survey of `motecheck`, by its options."""
from __future__ import annotations

import argparse
from collections.abc import Mapping, Sequence
from typing import Any

# For each option of motecheck: the values that it has, and its faults.
KINDS = {
    'links': ('', 'broken links, each in one direction'),
    'silent': ('', 'silent motes, which no mote hears'),
    'lost': ('', 'lost packets, each on its way to one mote'),
    'late': ('MOMENTS', 'packets that reach one mote so many moments later, such as 1,4'),
    'off': ('MOMENTS', 'motes that are off from such a moment on, such as 40,80'),
    'restarts': ('MOMENTS', 'motes that restart at such a moment'),
    'starts': ('MOMENTS', 'motes that start late, at such a moment'),
}
# The chosen kinds: for each its values, or an empty text.
Kinds = Mapping[str, str]
USUAL: Kinds = {'links': '', 'silent': '', 'lost': ''}


def add_kinds(words: argparse.ArgumentParser) -> None:
    """Adds an option for each kind."""
    for kind, (values, what) in KINDS.items():
        its: dict[str, Any] = {'metavar': values} if values else {'action': 'store_const', 'const': ''}
        words.add_argument('--' + kind, help='try ' + what, **its)


def kinds_asked(asked: argparse.Namespace) -> Kinds:
    """The kinds that the options of a command name; without such an option, the usual ones."""
    return {kind: values for kind in KINDS if (values := getattr(asked, kind)) is not None} or USUAL


def kinds_given(given: Mapping[str, bool | Sequence[int]]) -> Kinds:
    """The kinds that are true, or have values; without one, the usual ones."""
    return {kind: '' if its is True else ','.join(map(str, its or ())) for kind, its in given.items() if its} or USUAL


def options_of(kinds: Kinds) -> list[str]:
    """The options of motecheck for these kinds."""
    return ['--%s=%s' % it if it[1] else '--' + it[0] for it in kinds.items()]
