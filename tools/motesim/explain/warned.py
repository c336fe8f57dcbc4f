"""Warnings as data. `motesim.explain.say` has their texts."""
from __future__ import annotations

from collections.abc import Iterable
from typing import NamedTuple

from motesim.notation.tokens import Token

Fact = str | int


class Warned(NamedTuple):
    """A warning about something that is legal, but probably not meant.

    name     its name, such as `never-waits`
    facts    what the text says about this case
    program  the program that it is about, if it is about one; then `token` is its place there
    mote     the mote that it is about, or `loss` the loss; `others` are those with the same warning
    """
    name: str
    facts: tuple[tuple[str, Fact], ...] = ()
    program: str | None = None
    token: Token | None = None
    mote: int | None = None
    loss: int | None = None
    others: tuple[int, ...] = ()

    @property
    def path(self) -> tuple[str, int] | None:
        """The table of the scenario that the warning is about."""
        if self.loss is not None:
            return 'loss', self.loss
        return None if self.mote is None else ('mote', self.mote)


def of_token(name: str, program: str, token: Token, **facts: Fact) -> Warned:
    """A warning about a place of a program."""
    return Warned(name, tuple(facts.items()), program, token)


def together(found: Iterable[Warned]) -> list[Warned]:
    """One warning for all motes or losses with the same problem, at the place of the first one."""
    groups: dict[object, list[Warned]] = {}
    for number, it in enumerate(found):
        groups.setdefault((it.name, it.facts, it.program) if it.path else number, []).append(it)
    return [first._replace(others=tuple(it.path[1] for it in more if it.path))
            for first, *more in groups.values()]
