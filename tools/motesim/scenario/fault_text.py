"""The faults of a run, in the words of crates/radio_faults. `motecheck` reads them, and decides what they mean; this
module only finds the numbers in them.

    link 1 to 2 is broken                                     packet 3 of mote 2 is lost
    mote 3 is silent                                          packet 3 of mote 2 is lost on the way to mote 5
    mote 4 is off from 40 on                                  packet 3 of mote 2 is 4 late on the way to mote 5
    mote 4 is off from 40 to 80                               mote 4 restarts at 40
"""
from __future__ import annotations

import argparse
import re
from collections.abc import Iterable, Set
from typing import NamedTuple

from motesim.scenario.encodings import decoded, read_file

FOR_GOOD = 'off for good'
# The text of each kind, with a word in capitals for each number; these are the numbers of motes.
TEXTS = {
    'link': 'link FROM to TO is broken',
    'silent': 'mote FROM is silent',
    'lost to all': 'packet PACKET of mote FROM is lost',
    'lost': 'packet PACKET of mote FROM is lost on the way to mote TO',
    'late': 'packet PACKET of mote FROM is MOMENTS late on the way to mote TO',
    FOR_GOOD: 'mote FROM is off from BEGIN on',
    'off': 'mote FROM is off from BEGIN to END',
    'restart': 'mote FROM restarts at END',
}
MOTES = 'FROM', 'TO'
NUMBER = re.compile('[A-Z]+')
FORMS = {kind: re.compile(NUMBER.sub(r'(?P<\g<0>>[0-9]+)', text)) for kind, text in TEXTS.items()}
LOSING, OFF = ('link', 'silent', 'lost to all', 'lost'), (FOR_GOOD, 'off', 'restart')


class NetFault(NamedTuple):
    """A fault of a net: its kind, and its numbers by their names in `TEXTS`."""
    kind: str
    numbers: dict[str, int]

    @property
    def text(self) -> str:
        return NUMBER.sub(lambda it: str(self.numbers[it[0]]), TEXTS[self.kind])

    def loses(self, sender: int, packet: int, to: int) -> bool:
        """Returns whether it loses this packet of a mote on its way to another one."""
        meant = {'FROM': sender, 'PACKET': packet, 'TO': to}
        return self.kind in LOSING and all(meant[name] == number for name, number in self.numbers.items())

    def without(self, removed: Set[int]) -> NetFault | None:
        """The same fault with the numbers that motes have after others are removed; None if it is of a removed mote."""
        motes = {name: number for name, number in self.numbers.items() if name in MOTES}
        if removed & {*motes.values()}:
            return None
        less = {name: number - sum(it < number for it in removed) for name, number in motes.items()}
        return self._replace(numbers={**self.numbers, **less})


def read_fault(text: str) -> NetFault | None:
    """The fault that a text describes; None if it has none of the forms."""
    for kind, form in FORMS.items():
        if found := form.fullmatch(text):
            return NetFault(kind, {name: int(number) for name, number in found.groupdict().items()})
    return None


def read_faults(texts: Iterable[str]) -> list[NetFault]:
    """The faults of texts, without those that have none of the forms."""
    return [it for it in map(read_fault, texts) if it]


def lines_of(text: str) -> list[str]:
    """The faults in the text of a file."""
    return [it for it in text.split('\n') if it and not it.startswith('#')]


def faults_asked(asked: argparse.Namespace) -> tuple[str, ...]:
    """The faults that the options of a command name: those of --fault, then those of the file of --faults."""
    of_file = lines_of(decoded(asked.faults, read_file(asked.faults))) if asked.faults else []
    return (*asked.fault, *of_file)
