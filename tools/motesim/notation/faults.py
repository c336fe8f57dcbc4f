"""Errors of program texts as data: the kind of an error, its token, and what is allowed there; and the rules in plain
words. `motesim.notation.reader` finds the first error of a text; `motesim` reports the same kind and line.
"""
from __future__ import annotations

from collections.abc import Iterable
from typing import NamedTuple

from motesim.notation.tokens import Token

# For each kind, its name in docs/use/LANGUAGE.md and its rule.
RULES: dict[int, tuple[str, str]] = {
    1: ('BadToken',
        'A program consists of names, numbers, keywords and symbols. A name begins with a letter, and has at most '
        '16 small letters, digits and `_`; a number has no unnecessary 0 in front.'),
    2: ('Unexpected', 'This can\'t follow the words before it.'),
    3: ('UnknownName', 'Nothing has this name here. A name has to be declared before it is used; variables, timers '
        'and threads are known in their own code only.'),
    4: ('NameTwice', 'This name is known here already. No name is declared twice, and no process is named twice in '
        '`autostart`.'),
    5: ('NumberTooLarge', 'All numbers have 16 bits: none is above 65,535.'),
    6: ('WaitInSimpleBlock', 'The blocks of `ctimer`, `onpoll` and `onexit` are run to their end at once, so no '
        'statement in them may wait.'),
    7: ('TooDeep', 'Blocks and expressions are nested at most 32 deep.'),
    8: ('TooMany', 'There is one too many of these.'),
    9: ('NoProcess', 'A program has at least one process.'),
    10: ('BadTarget', 'A name of another kind is needed here; a thread never spawns itself.'),
    11: ('Memory', 'Memory ran out while the program was read. The text may have no error.'),
}


class Allowed(str):
    """What may stand at the place of a fault, as messages show it. `kind` is `word`, the kind of a name such as
    `timer`, or empty; `names` has the word, or the known names."""
    kind: str
    names: tuple[str, ...]

    def __new__(cls, shown: str, kind: str = '', names: Iterable[str] = ()) -> Allowed:
        made = super().__new__(cls, shown)
        made.kind, made.names = kind, tuple(names)
        return made


def words_of(words: Iterable[str]) -> list[Allowed]:
    """Words that are allowed as they are."""
    return [Allowed('`%s`' % it, 'word', (it,)) for it in words]


class ProgramError(NamedTuple):
    """The first fault of a program text: its kind, the token that is not allowed, and the allowed ones."""
    kind: int
    token: Token
    may: tuple[Allowed, ...] = ()

    def allows(self, word: str) -> bool:
        """Returns whether a word may stand at the place of the fault."""
        return any(it.kind == 'word' and word in it.names for it in self.may)
