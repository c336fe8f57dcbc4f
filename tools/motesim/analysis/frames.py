"""The rows of a sweep as a pandas DataFrame."""
from __future__ import annotations

import sys
from pathlib import Path
from typing import Any

from motesim import packages
from motesim.experiments.results import read_results


def frame(path: str | Path, with_errors: bool = False) -> Any:
    """A DataFrame with a row for each run of a sweep's file, and runs with an error only if the caller asks for them.
    Standard error has the number of omitted rows."""
    head, rows = read_results(Path(path))
    pandas: Any = packages.load('pandas')
    kept = [row for row in rows if with_errors or not row['error']]
    if len(kept) < len(rows):
        print('frame: %s: left out: %d of %d runs, which have an error; frame(.., with_errors=True) has them' % (
            path, len(rows) - len(kept), len(rows)), file=sys.stderr)
    # (pandas would convert whole numbers to real numbers in a column with gaps)
    kinds = {name: {type(row[name]) for row in kept} for name in head.columns}
    return pandas.DataFrame(kept, columns=head.columns).astype(
        {name: 'Int64' for name, its in kinds.items() if its == {int, type(None)}})
