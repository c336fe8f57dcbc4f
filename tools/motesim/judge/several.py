"""Reads several sentences, and names all that can't be read."""
from __future__ import annotations

from collections.abc import Sequence

from motesim.faults import Fault
from motesim.judge.meaning import Sentence
from motesim.judge.names import Names
from motesim.judge.sentence_fault import SentenceFault
from motesim.judge.sentences import read_sentence

# The most sentences that can't be read which an error shows.
MOST_UNKNOWN = 10


class UnknownSentence(Fault):
    """Sentences that can't be read. `which` names them in one line; the text of the error also shows the place in each
    of them."""

    def __init__(self, unknown: Sequence[tuple[int, str]]):
        numbers = [str(number) for number, _ in unknown[:MOST_UNKNOWN]]
        left = len(unknown) - MOST_UNKNOWN
        rows = ['expectation %s is not known\n%s' % (number, explained)
                for number, (_, explained) in zip(numbers, unknown)]
        rows += ['{:,} more {} not known'.format(left, 'expectation is' if left == 1 else 'expectations are')] * (
            left > 0)
        self.which = ('expectation %s is not known' if len(unknown) == 1 else 'expectations %s are not known') % (
            ', '.join(numbers) + ', ..' * (left > 0))
        super().__init__('\n'.join(rows))


def read_all(sentences: list[str], names: Names) -> list[Sentence]:
    """The sentences of a part. Raises an `UnknownSentence` if some of them can't be read."""
    found, unknown = list[Sentence](), list[tuple[int, str]]()
    for number, sentence in enumerate(sentences, 1):
        try:
            found.append(read_sentence(sentence, names))
        except SentenceFault as fault:
            unknown.append((number, fault.explained))
    if unknown:
        raise UnknownSentence(unknown)
    return found
