"""The marks of a solution: a mark for each sentence, and what a table and a page show of them."""
from __future__ import annotations

from collections.abc import Iterable, Sequence
from dataclasses import dataclass, replace
from typing import NamedTuple

from motesim.judge.expectations import REQUIRED
from motesim.judge.reasons import Broken
from motesim.report.run import Run
from motesim.terminal import cut, one_line

LONGEST_WHY = 400
# The most characters of a solution's name in a table.
WIDEST_NAME = 40
OF_HIDDEN = 'in a hidden net'


class Mark(NamedTuple):
    """A sentence: the nets in which it doesn't hold, and the reason in the first of them.

    shown        the net and the reason as a page may show them to students: nothing of a hidden net
    is_required  whether a solution that doesn't meet the sentence earns nothing
    remark       in the first net, if each net has one: the remark that the sentence says less than a reader may think
    broken       what breaks it, if this is the mark in one net
    """
    sentence: str
    holds: bool
    nets: tuple[str, ...] = ()
    more: tuple[str, ...] = ()
    shown: tuple[str, ...] = ()
    is_required: bool = False
    remark: str = ''
    broken: Broken | None = None

    @property
    def words(self) -> str:
        """The sentence, with a remark if it is required."""
        return self.sentence + REQUIRED * self.is_required


def lines_of(rows: Iterable[str]) -> tuple[str, ...]:
    """Rows that are one line each, with the tabs of a program."""
    return tuple('\t'.join(map(one_line, row.split('\t'))) for row in rows)


@dataclass(frozen=True)
class Marks:
    """A solution: its name; a mark for each sentence, or the reason why there are none; and the names that occur in
    sentences, but not in the solution.

    is_open  whether it isn't marked, though it is a solution and may be right
    is_solution  whether it is marked: other files than solutions have no mark, and don't count
    picture  the page with the timeline of the first sentence that fails in a net that isn't hidden, in the folder of
             pictures; and `pictured`, the place of this sentence
    no_page  the reason why there is no such page, though pages were asked for
    fix      for a refused scenario or program, the place of its error, and the correction
    """
    name: str
    marks: tuple[Mark, ...] = ()
    why: str = ''
    lacks: tuple[str, ...] = ()
    picture: str = ''
    pictured: int | None = None
    no_page: str = ''
    fix: tuple[str, ...] = ()
    is_open: bool = False
    is_solution: bool = True

    @property
    def has_mark(self) -> bool:
        return self.is_solution and not self.is_open

    def in_lines(self) -> Marks:
        """These marks, with each text in one line: names in a solution may have characters that would end or change a
        row."""
        marks = tuple(it._replace(more=lines_of(it.more), shown=lines_of(it.shown), remark=one_line(it.remark))
                      for it in self.marks)
        lacks = tuple(cut(one_line(it), LONGEST_WHY) for it in self.lacks)
        return replace(self, marks=marks, why=cut(one_line(self.why), LONGEST_WHY), lacks=lacks,
                       fix=lines_of(self.fix))

    @property
    def short_name(self) -> str:
        """The name, as a table has it."""
        return cut(self.name, WIDEST_NAME)

    @property
    def held(self) -> int:
        """The mark: how many sentences hold, or 0 if a required one doesn't."""
        return sum(it.holds for it in self.marks) if all(it.holds for it in self.marks if it.is_required) else 0

    @property
    def fault(self) -> str:
        """The reason why the solution has no marks, or the names that occur in sentences, but not in the solution."""
        return self.why or ', '.join(dict.fromkeys(it for it in self.lacks if it))

    @property
    def first_failed(self) -> int | None:
        """The place of the first sentence that doesn't hold."""
        return next((place for place, it in enumerate(self.marks) if not it.holds), None)


class MarksInNet(NamedTuple):
    """The marks of a solution in one net, and for each sentence the name that the scenario lacks."""
    marks: Sequence[Mark]
    lacks: list[str]
    why: str = ''
    run: Run | None = None
    is_refused: bool = False
    net: str = ''
    is_hidden: bool = False
    bytes: int = 0


def spread(held: Iterable[Mark], sentences: Sequence[str], lacks: Sequence[str]) -> list[Mark]:
    """A mark for each sentence: a sentence about something that the scenario lacks doesn't hold."""
    known = iter(held)
    return [Mark(it, False, (), ('the scenario has %s' % lack,)) if lack else next(known)
            for it, lack in zip(sentences, lacks)]


def over_nets(found: Sequence[MarksInNet], required: int) -> tuple[Mark, ...]:
    """The marks over all nets: a sentence holds if it holds in each. The first sentences are required."""
    marks = []
    for place, each in enumerate(zip(*(its.marks for its in found))):
        failed = [(its, mark) for its, mark in zip(found, each) if not mark.holds]
        marks.append(Mark(each[0].sentence, not failed, tuple(its.net for its, _ in failed if its.net),
                          failed[0][1].more if failed else (), shown_of(failed), place < required,
                          each[0].remark if all(it.remark for it in each) else ''))
    return tuple(marks)


def unmarked(name: str, why: str) -> Marks:
    """A solution that has to be marked again, because the reason isn't in the solution."""
    return Marks(name, why='not graded, run it again: %s' % why, is_open=True)


def shown_of(failed: Sequence[tuple[MarksInNet, Mark]]) -> tuple[str, ...]:
    """The net and the reason that a page may show for a sentence that doesn't hold."""
    shown = next(((its, mark) for its, mark in failed if not its.is_hidden), None)
    if shown is None:
        return (OF_HIDDEN,) if failed else ()
    its, mark = shown
    return (*(['in %s' % its.net] if its.net else []), *mark.more)
