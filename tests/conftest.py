"""The set-up of pytest for the tests of the built program; the commands in tools/dev call it.

    python3 -m pytest tests                                   # all of them
    python3 -m pytest tests/test_cases.py --name nets         # some of one module

The program is the binary that MOTESIM names, or the built one. The last line is `N passed, M failed, K skipped`.
"""
from __future__ import annotations

import sys
from pathlib import Path

import pytest

sys.path.insert(0, str(Path(__file__).resolve().parents[1] / 'tools'))
from motesim.runner.programs import CHECKER, is_module, program_path  # noqa: E402
from project.counts import pytest_terminal_summary  # noqa: E402, F401


def pytest_addoption(parser: pytest.Parser) -> None:
    parser.addoption('--name', action='append', default=[], help='test only this; the module says what it may name')
    parser.addoption('--build', action='store_true', help='test_module: also build the module again')


@pytest.fixture(scope='session')
def program() -> Path:
    """The program that is tested."""
    return program_path().resolve()


@pytest.fixture(scope='session')
def checker() -> Path:
    """The motecheck whose answers are compared."""
    found = program_path(CHECKER)
    if is_module(found):
        pytest.skip('motecheck isn\'t built')
    return found.resolve()
