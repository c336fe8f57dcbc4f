"""The places in a file of the texts of a scenario's programs."""
from __future__ import annotations

from collections.abc import Sequence
from typing import NamedTuple

from motesim.notation.tokens import Token
from motesim.scenario.places import Place, place_of
from motesim.toml import NoToml, read_toml


class ProgramPlace(NamedTuple):
    """The place of a program's text in a file: the file's name, and the number of its lines above the text."""
    file: str
    above: int


class ScenarioFile(NamedTuple):
    """A file that has programs (a scenario or `NAME.mote`): its name, without folders, and its text."""
    name: str
    text: str

    def place(self, name: str, program: str) -> ProgramPlace | None:
        """The place of a program's text in the file, if all of its lines are found there."""
        is_program = self.name.endswith('.mote')
        above = _above(self.text, program, [0]) if is_program else above_program(
            self.text, self.named(name, program), program)
        return None if above is None else ProgramPlace(self.name, above)

    def named(self, name: str, program: str) -> str:
        """The name of a program in the file; the net may have another name for it."""
        try:
            programs = read_toml(self.text).get('programs', {})
        except NoToml:
            return name
        if name in programs or type(programs) is not dict:
            return name
        return next((it for it, text in programs.items() if text == program), name)


def _above(text: str, source: str, begins: Sequence[int]) -> int | None:
    """The first of these numbers of lines below which a text has all lines of a source."""
    rows, lines = text.split('\n'), [line.strip() for line in source.rstrip().split('\n')]
    for begin in begins:
        beside = rows[begin:begin + len(lines)]
        if len(beside) == len(lines) and all(line in row for line, row in zip(lines, beside)):
            return begin
    return None


def above_program(text: str, program: str, source: str) -> int | None:
    """The number of lines of a scenario above the first line of a program's text, if all of its lines are there."""
    quotes = place_of(text, ('programs', program)).line - 1
    # (a text of several lines begins on the line of its quotes, or on the one below)
    return _above(text, source, [quotes, quotes + 1])


def source_of(text: str, program: str) -> str:
    source: str = read_toml(text)['programs'][program]
    return source


def offset_of(text: str, program: str) -> int | None:
    """The line of a scenario above the first line of a program's text, if the text has lines of its own."""
    source = source_of(text, program)
    return above_program(text, program, source) if source.count('\n') > 1 else None


def place_of_token(text: str, program: str, token: Token) -> Place | None:
    """The place of a token of a program's text in the scenario, if the text is found there."""
    source = source_of(text, program)
    above = above_program(text, program, source)
    if above is None:
        return None
    line, row = source.split('\n')[token.line - 1].rstrip('\r'), text.split('\n')[above + token.line - 1]
    begin = row.find(line.strip()) - (len(line) - len(line.lstrip())) if line.strip() else 0
    return Place(above + token.line, begin + token.column, max(1, len(token.text)))
