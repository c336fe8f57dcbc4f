"""The note of a page that shows why a sentence doesn't hold: the line that breaks it, or the lines that are nearly the
wanted one.

    write_page('ben.html', 'ben', [run], note=note_of(run, 'mote 6 prints wave 3', broken))
"""
from __future__ import annotations

from typing import Any, NamedTuple

from motesim.faults import Fault
from motesim.judge.reasons import Broken
from motesim.judge.meaning import Value
from motesim.report.run import Run
from motesim.causes.miss import last_of, misses
from motesim.causes.question import Asked, Asker, Missing
from motesim.causes.say import about, of_miss
from motesim.causes.source import Source, source_of

MOST_LINES = 8


class Line(NamedTuple):
    """A line of a note, with the row of the report that it is about, or 0."""
    text: str
    row: int = 0


class Note(NamedTuple):
    """A sentence that doesn't hold, the reason, and the lines about it. The page opens at the first line that has a
    row, or at the last line of a mote up to the moment `at`; without both, on the whole run. `others`: the notes about
    other sentences, which the page shows if one opens them."""
    title: str
    why: str
    lines: tuple[Line, ...] = ()
    at: int = 0
    mote: int | None = None
    others: tuple[Note, ...] = ()

    def as_json(self) -> dict[str, Any]:
        return {**self._asdict(), 'lines': [it._asdict() for it in self.lines],
                'others': [it.as_json() for it in self.others]}


def note_of(run: Run, sentence: str, broken: Broken | None, more: tuple[str, ...] = ()) -> Note:
    """The note for a sentence. `more` is the reason why it doesn't hold, if `broken` has none."""
    if broken is None:
        return Note(sentence, '', tuple(map(Line, more)))
    source = source_of(run)
    if broken.row:
        return Note(sentence, broken.words, (Line(_text(source, broken.row), broken.row),))
    try:
        asker = Asker(source)
        found = asker.about(sentence)
    except Fault:
        return Note(sentence, broken.why)
    if isinstance(found, Asked):
        row = source.traces.row(found.where)
        return Note(sentence, about(source, found) or broken.why, (Line(_text(source, row), row),))
    if found.sentence.deed.way == 'set' and len(found.motes) > 1:
        # (any of the motes may print the missing values, at any moment, so no line is near them)
        return Note(sentence, found.remark)
    lines = _near(asker, found)
    return Note(sentence, '%s. The nearest:' % found.remark if lines else found.remark, lines,
                last_of(found.span, source), found.motes[0])


def _near(asker: Asker, missing: Missing) -> tuple[Line, ...]:
    """The near misses of a missing line, first those about the wanted packet itself. If no run of the program can have
    this report, there are none."""
    # (if a value is missing, a copy with another value is no reason to look at it first)
    deed = missing.sentence.deed
    has_value = deed.way in ('just', 'set') or isinstance(deed.patterns[0][-1], Value)
    try:
        lines = [Line('mote %d: %s' % (mote, of_miss(asker.source, it)), it.row if it.is_wanted or not has_value else 0)
                 for mote, its in misses(asker, missing) for it in sorted(its, key=lambda it: not it.is_wanted)]
    except Fault:
        return ()
    return tuple(lines[:MOST_LINES])


def _text(source: Source, row: int) -> str:
    """A row of the report."""
    return source.traces.report.row(row)
