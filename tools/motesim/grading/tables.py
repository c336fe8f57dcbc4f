"""The marks of a class as text and CSV."""
from __future__ import annotations

import csv
import io
import shlex
import unicodedata
from collections.abc import Sequence

from motesim.cells import aligned
from motesim.grading.marks import Mark, Marks
from motesim.judge.expectations import REQUIRED

COLUMNS = ('scenario', 'holds', 'of', 'error')
# How many nets a line names.
MOST_NAMED = 3
# Some spreadsheets treat a cell with this beginning as a formula.
OF_FORMULA = ('=', '+', '-', '@', '\t', '\r', '|', '%')
RENAMED = 'Hint: expectations use the names of the task: if a process was renamed, rename it back, and grade again'
SHARED = 'in all solutions and nets, this or a similar remark: %s'


def sentences_of(marked: Sequence[Marks]) -> list[str]:
    """The sentences, in their order."""
    return max(([it.sentence for it in one.marks] for one in marked), key=len, default=[])


def required_of(marked: Sequence[Marks]) -> list[int]:
    """The numbers of the sentences without which a solution earns nothing."""
    return sorted({number for one in marked for number, it in enumerate(one.marks, 1) if it.is_required})


def count_of(marks: Marks, count: int) -> str:
    """The number of sentences that hold for a solution; `-` if it has no mark."""
    return '%d of %d' % (marks.held, count) if marks.has_mark else '- of %d' % count


def table(marked: Sequence[Marks], sentences: Sequence[str]) -> list[str]:
    """A row for each solution."""
    rows = []
    for it in marked:
        broken = ', '.join('%d%s' % (number, REQUIRED * one.is_required) for number, one in enumerate(it.marks, 1)
                           if not one.holds)
        words = it.fault if it.why else '; '.join(filter(None, (broken and 'broken: %s' % broken, it.fault)))
        rows.append((it.short_name, count_of(it, len(sentences)), words))
    return list(aligned(rows, range(3), '  '))


def below(marked: Sequence[Marks], sentences: Sequence[str]) -> list[str]:
    """The sentences, each with how many solutions meet it, and with a remark if each solution has one."""
    required, solutions = required_of(marked), [it for it in marked if it.is_solution]
    rows = []
    for number, sentence in enumerate(sentences, 1):
        rows.append('%3d  %d of %d  %s%s' % (number, sum(holds(it, number) for it in solutions), len(solutions),
                                             sentence, REQUIRED * (number in required)))
        remarks = [it.marks[number - 1].remark for it in solutions if len(it.marks) >= number and not it.why]
        rows += ['     ' + SHARED % remarks[0]] if remarks and all(remarks) else []
    return rows


def pointer(marked: Sequence[Marks]) -> list[str]:
    """The line about the option that shows the errors of refused solutions."""
    refused = [it.name for it in marked if it.fix]
    return ['', '--why %s shows the place of its error' % shlex.quote(refused[0])] if refused else []


def cell(text: str) -> str:
    """A text that no spreadsheet runs: one that begins like a formula has an apostrophe in front.

    A character counts in each of its widths, also after blanks.
    """
    begin = unicodedata.normalize('NFKC', text.lstrip(' \u3000'))
    return "'" + text if begin.startswith(OF_FORMULA) else text


def without_separators(text: str) -> str:
    """A text of a solution that is one cell, even if `;` or a tab separates cells: these characters are escaped."""
    return text.replace(';', '\\x3b').replace('\t', '\\x09')


def csv_of(marked: Sequence[Marks], sentences: Sequence[str]) -> str:
    """A row for each solution, with 1 for a sentence that holds and otherwise 0; its cells are empty if it isn't
    marked. All texts are in quotes."""
    out = io.StringIO(newline='')
    rows = csv.writer(out, lineterminator='\n', quoting=csv.QUOTE_NONNUMERIC)
    rows.writerow([*COLUMNS, *map(cell, sentences)])
    for it in marked:
        holds: list[object] = [int(one.holds) for one in it.marks]
        missing = 0 if it.has_mark else ''
        fault = cell(without_separators(it.fault.replace('; ', ', ')))
        rows.writerow([cell(without_separators(it.name)), it.held if it.has_mark else missing, len(sentences), fault,
                       *(holds or [missing] * len(sentences))])
    return out.getvalue()


def holds(marks: Marks, number: int) -> bool:
    """True if a sentence holds for a solution. If the solution has no run, no sentence holds."""
    return len(marks.marks) >= number and marks.marks[number - 1].holds


def in_nets(nets: Sequence[str]) -> str:
    """The nets in which a sentence doesn't hold; if there are several, the reason below is that of the first one."""
    more = ' and {:,} more'.format(len(nets) - MOST_NAMED) if len(nets) > MOST_NAMED else ''
    return 'in %s%s%s' % (', '.join(nets[:MOST_NAMED]), more, '; in %s:' % nets[0] if len(nets) > 1 else '')


def why(marks: Marks) -> list[str]:
    """The lines about the sentences of one solution, with a hint if they have names that the solution lacks."""
    lines = [*([marks.why] if marks.why else []), *marks.fix]
    # (without a report no sentence holds, all for the same reason)
    lines += [row for it in marks.marks if not marks.why for row in rows_of(it)]
    return [*lines, *([RENAMED] * any(marks.lacks))]


def rows_of(it: Mark) -> list[str]:
    """The lines about a sentence."""
    nets = [in_nets(it.nets)] if it.nets else []
    return [('holds   ' if it.holds else 'broken  ') + it.words,
            *('          ' + row for row in [*nets, *it.more, *filter(None, [it.remark])])]
