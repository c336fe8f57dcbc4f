"""Compares runs with workers to the run on one thread: tools/dev/compare_workers [FILE ..]

Each scenario is run on one thread, and then with 1, 2, 3, 7 and 16 workers with both partitions and both kinds of
synchronisation; status, report and fault line have to be the same. Without a name, the examples are run, and a net of
beacons. The report of this net has so many lines that workers write them in several rounds. If there is a file
NAME.expected next to NAME.toml, the run on one thread has to write the text of this file: a report, or the one line of
a fault.
"""
from __future__ import annotations

import itertools
import subprocess
from pathlib import Path

import pytest
from differences import answer, check_answer
from motesim.runner import Answer
from motesim.runner.programs import TOP

WAYS = [['--workers', workers, '--cut', cut, '--sync', sync] for sync, workers, cut in itertools.product(
    ('joins', 'marks'), ('1', '2', '3', '7', '16'), ('block', 'stripe'))]
# The script that makes a net of beacons, and its arguments for a report of about 150,000 lines.
BEACONS, SIZES = TOP / 'bench/beacons', ('10', '1000', '10')


def pytest_generate_tests(metafunc: pytest.Metafunc) -> None:
    examples = [it for it in sorted(TOP.glob('examples/**/*.toml')) if not it.name.endswith('.expect.toml')]
    paths = [*map(Path, metafunc.config.getoption('name'))] or [*examples, BEACONS]
    metafunc.parametrize('path', paths, ids=[str(it.relative_to(TOP) if TOP in it.parents else it) for it in paths])


def text_of(path: Path) -> bytes:
    return subprocess.check_output([path, *SIZES]) if path == BEACONS else path.read_bytes()


def test_workers_answer_the_same(path: Path, program: Path) -> None:
    scenario, noted = text_of(path), path.with_suffix('.expected')
    serial = answer(program, scenario)
    if noted.is_file():
        text = noted.read_bytes()
        expected = Answer(1, b'', text) if text.startswith(b'motesim:') else Answer(0, text, b'')
        check_answer('on one thread', expected, serial)
    for words in WAYS:
        check_answer(' '.join(words), serial, answer(program, scenario, *words))
