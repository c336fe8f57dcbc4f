"""Sentences that can't be read: the place of the error, and the words that are allowed there."""
from __future__ import annotations

import re
from collections.abc import Sequence

from motesim.faults import Fault
from motesim.text import nearest, wrapped

# Sentences of all kinds; an error shows the one that has the most words in common with the sentence.
EXAMPLES = (
    'mote 6 prints flood 1 by 60', 'every mote but 0 prints flood its distance from mote 0',
    'mote 3 prints just flood 1, 2, 3', 'every mote finally prints flood 7', 'no mote sends more than twice',
    'motes 3 to 7 together send at most 2 times between 40 and 160', 'at least 5 motes receive 1 from mote 0',
    'mote 3 never halts', 'mote 6 sends 1 within 10 of receiving 1', 'mote 6 prints flood 1 after mote 0 sends 1',
    'exactly 1 mote sends in each 120 from 0 to 1199', 'mote 1 sends at least 3 times as often as mote 0',
    'mote 0 prints flood once for each value that mote 1 sends', 'all motes finally print the same flood',
    'mote 0 prints flood at most once for each value', 'mote 1 sends, or mote 2 sends',
    "mote 1 writes 'post 0 flood'", 'every copy arrives', 'no copy collides at mote 3',
    'exactly 75 packets are sent', 'the report has at most 2000 lines', 'mote 1 can hear mote 0',
)


class SentenceFault(Fault):
    """A sentence that can't be read: the place of the first word that isn't allowed, the allowed ones, and the names
    that are allowed there."""

    def __init__(self, sentence: str, place: int, wanted: list[str], names: Sequence[str] = ()):
        self.sentence, self.place, self.wanted = sentence, place, wanted
        shown = ['"%s"' % it if it.startswith(',') else it.replace(' ,', ',') for it in wanted]
        word = re.match(r'[A-Za-z_]\w{2,}', sentence[place:])
        self.like = word and nearest(word[0], [*names, *(it.split()[0] for it in wanted)]) or ''
        lines = [sentence, ' ' * place + '^', *wrapped('Allowed here: ' + ', '.join(shown))]
        lines += ['Did you mean: ' + self.like] if self.like else []
        words = {*sentence.lower().split(), self.like.lower()}
        example = max(EXAMPLES, key=lambda it: len(words.intersection(it.split())))
        # (the sentence with a mark under the word, and the allowed words)
        self.explained = '  ' + '\n  '.join([*lines, 'Example: ' + example])
        super().__init__('expectation 1 is not known\n' + self.explained)
