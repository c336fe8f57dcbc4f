"""The fault studies of the examples come out as they say. How one that doesn't is told is in sessions/search.toml."""
import contextlib
import io
import os
from pathlib import Path

import pytest
from here import TOP
from motesim.surveys.study import check_studies
from skips import long, need_built

FILES = sorted((TOP / 'examples/faults').glob('*.toml'))


def test_there_are_studies() -> None:
    assert {it.stem for it in FILES} >= {'flooding', 'collection_tree', 'leader_ring', 'tdma'}


@long
@pytest.mark.parametrize('path', FILES, ids=lambda it: str(it.stem))
def test_a_study_comes_out_as_it_says(path: Path) -> None:
    need_built()
    with contextlib.redirect_stdout(io.StringIO()) as said:
        assert check_studies(path, os.cpu_count() or 1)[1] == 0, said.getvalue()
