"""The sessions with the tools that are tables in sessions/, each of them a test; sessions.py says how a table is
read."""
from pathlib import Path
from typing import Any

import pytest
from sessions import TABLES, Table, play


def class_of(path: Path) -> type:
    """A class of the tests of a table, which may run beside those of another one."""
    table = Table(path)

    @pytest.mark.parametrize('session', table.sessions, ids=[it['name'].replace(' ', '_') for it in table.sessions])
    def test_session(self: Any, session: dict[str, Any], tmp_path: Path) -> None:
        play(table, session, tmp_path)
    return type('Test_' + path.stem, (), {'test_session': test_session})


for each in sorted(TABLES.glob('*.toml')):
    globals()['Test_' + each.stem] = class_of(each)
