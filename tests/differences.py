"""Runs of the built program, and the differences between the results of two runs."""
from __future__ import annotations

import difflib
from collections.abc import Sequence
from pathlib import Path

import pytest
from motesim.runner import Answer, Limits, Runner

MOST_LINES = 20
# No run needs so long, on whatever machine; one that never ends is ended then.
SECONDS = 1800


def answer(program: Path, scenario: bytes, *arguments: str, seconds: float = SECONDS) -> Answer:
    """The answer of a program to a scenario on standard input."""
    return Runner(program, Limits(seconds)).answer(scenario, *arguments)


def lines_of(answer: Answer) -> list[str]:
    """An answer as lines of text: the status, the lines on standard error, and the report."""
    report, fault = (it.decode('utf-8', 'backslashreplace').split('\n') for it in (answer.report, answer.fault))
    return ['status: %d' % answer.status, *('standard error: ' + it for it in fault), *report]


def check_lines(about: str, expected: Sequence[str], found: Sequence[str]) -> None:
    """Fails with the lines that differ, unless two texts are the same."""
    if found != expected:
        lines = list(difflib.unified_diff(expected, found, 'expected', 'found', lineterm='', n=1))
        more = ['.. and %d more lines' % (len(lines) - MOST_LINES)] if len(lines) > MOST_LINES else []
        pytest.fail('\n'.join(['%s differs:' % about, *lines[:MOST_LINES], *more]), pytrace=False)


def check_answer(about: str, expected: Answer, found: Answer) -> None:
    """Fails with the lines that differ, unless two results are the same."""
    if found != expected:
        check_lines(about, lines_of(expected), lines_of(found))
        pytest.fail('%s differs in bytes that are not text' % about, pytrace=False)
