"""Rows of tables: as lines of CSV, and as text in columns."""
from __future__ import annotations

import csv
import io
from collections.abc import Collection, Iterable, Iterator, Sequence

Cell = int | float | str | None


def text_of(value: Cell) -> str:
    return '' if value is None else repr(value) if type(value) is float else str(value)


def line_of(values: Iterable[Cell]) -> str:
    """A line of CSV."""
    out = io.StringIO(newline='')
    csv.writer(out, lineterminator='\n').writerow([text_of(value) for value in values])
    return out.getvalue()


def aligned(rows: Iterable[Sequence[str]], lefts: Collection[int] = (), gap: str = ' ') -> Iterator[str]:
    """Rows of texts in columns, with a gap between two: those of these numbers are aligned left, the others right."""
    texts = list(rows)
    widths = [max(map(len, column)) for column in zip(*texts)]
    for row in texts:
        yield gap.join(text.ljust(width) if column in lefts else text.rjust(width)
                       for column, (text, width) in enumerate(zip(row, widths))).rstrip()
