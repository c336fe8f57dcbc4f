"""A program instead of motesim, for tests of tools that run it: its reports are short and known beforehand.

Mote n prints P at moment P * (n + 1), where P is what the first `print` of its program has. A comment `// wait`,
`// memory`, `// burn`, `// long` or `// refuse` in the program makes it wait as HOLDS does, use much memory meanwhile,
use a minute of processor time, or answer a long report or a fault. It can't grow: it ends at a gigabyte of memory, at
two minutes of processor time, and after 100 megabytes of its report. It is in Perl, which starts in a tenth of
Python's time.

`programs_of` has the environment of tools that run a stand-in for motesim, and one for motecheck, which decides claims
about its reports. In a block of `judged`, processes that are forked from this one decide them without motecheck.
"""
import sys
from collections.abc import Callable, Sequence
from pathlib import Path
from typing import Any
from unittest import mock

from claim_judge import answers_to
from here import TOOLS, text_of
from motesim.judge.verdicts import NoVerdict
from motesim.runner import Limits, Runner
from motesim.runner.programs import program_path

STUB = text_of('stub.pl.txt')


def write_stub(folder: Path) -> Path:
    """Writes the program into a folder."""
    path = folder / 'stub'
    path.write_text(STUB)
    path.chmod(0o755)
    return path


def programs_of(motesim: Path) -> dict[str, str]:
    checker = motesim.with_name('stub-checker')
    checker.write_text('#!/bin/sh\nexec %s -B %s "$@"\n' % (sys.executable, TOOLS / 'tests/claim_judge.py'))
    checker.chmod(0o755)
    return {'MOTESIM': str(motesim), 'MOTECHECK': str(checker)}


def answers(scenario: bytes, claims: Sequence[str], *options: str, program: Path | None = None,
            limits: Limits = Limits(), asks_end: Callable[[], bool] = lambda: False, faults: Sequence[str] = ()
            ) -> list[str]:
    """The answers of the stand-in for motecheck, in this process: another one needs most of its time to start."""
    got = Runner(program_path(), limits, asks_end).answer(scenario)
    if got.status:
        raise NoVerdict('no verdict: %s' % got.why.replace('motesim', 'motecheck'))
    return answers_to([*claims], scenario, got.report.decode())


def judged() -> Any:
    return mock.patch('motesim.judge.verdicts.answers', answers)
