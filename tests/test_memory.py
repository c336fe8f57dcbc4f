"""Runs motesim once for each of its requests for memory, and refuses this request: tools/dev/refuse_memory [FILE]

`motesim` simulates a scenario. In the first run its first request is refused, in the second run its second request,
and so on, until a run has no further request. The start of a thread is a request too, for the thread's stack. Each run
has to end in one of three ways:

- with the report and the status of a run in which no request is refused;
- with `motesim: out of memory`, status 1 and a beginning of the report, unless the request was the start of a thread;
- with workers only: with `motesim: run fault 5`, status 1 and no report.

If a request of a worker's thread is refused inside the executor, the run ends with `run fault 5`, and otherwise with
`out of memory`. The refused requests of workers must not all lead to `run fault 5`. If a report has so many lines that
threads format it, and the start of one of these threads is refused, the run has to write the whole report.

After FILE and `--` there may be arguments of motesim, as in `-- --workers 2 --sync marks`. Without FILE, small
scenarios are tried on one thread, and with two and three workers of both kinds of synchronisation. These scenarios have
packets of two senders, a full ring, a full queue, a refused timer, and a fault. Two motes with many lines are tried
with two workers of both kinds.

A test of crates/part_tests, as `rt ci` builds it, is tried in the same way. It calls kernels and motes after they have
run out of memory. It has to pass, or to end with its own error if it has no kernel or mote to call.

A library in C refuses the requests. `cc` compiles it, and it is loaded before the C library.
"""
from __future__ import annotations

import runpy
import shutil
import subprocess
from collections import Counter
from itertools import count
from pathlib import Path

import pytest
from differences import answer
from motesim.runner import Answer, LimitMet
from motesim.runner.programs import TOP

FILES = ['tests/cases/nets/two_senders.toml', 'tests/cases/nets/ring_overflows.toml',
         'tests/cases/queues/full_queue.toml', 'tests/cases/queues/refused_timer_waits.toml', 'examples/wrong.toml']
WAYS = ['', *('--workers %s --sync %s' % (workers, sync) for sync in ('joins', 'marks') for workers in '23')]
# A report that is formatted by threads.
MANY_LINES = 'tests/cases/nets/many_lines.make'
CALLS = ['crates/part_tests/out/part_tests_tests', 'tests::refused::once_out_of_memory']
# For each run, a scenario and the arguments of `motesim`, or a program of tests and the name of one test. (The last
# file has a fault, which is found before there are workers.)
RUNS: list[list[str]] = [
    *([file, *way.split()] for way in WAYS for file in (FILES if way in WAYS[:2] else FILES[:-1])),
    *([MANY_LINES, *way.split()] for way in WAYS if way.startswith('--workers 2')), CALLS]
REFUSES = Path(__file__).with_name('refuses.c')
OUT_OF_MEMORY, NO_THREAD = b'motesim: out of memory\n', b'motesim: run fault 5\n'
# The requests, in the words of the library: the start of a thread, and memory for a thread that isn't the first.
START, OF_WORKER = 'start', 'other'
# The status of a test that returns an error; one whose assertion fails is stopped by a signal.
RETURNED_ERROR = 101


def scenario_in(file: Path) -> bytes:
    """The scenario in a file, or the one that NAME.make makes."""
    if file.suffix == '.make':
        made: str = runpy.run_path(str(file))['scenario']()
        return made.encode()
    return file.read_bytes()


def may_be(found: Answer, whole: Answer, words: list[str], refused: str) -> bool:
    """Returns whether this answer is allowed for a run in which this request was refused; `whole` is the answer if no
    request is refused."""
    if words == CALLS:
        return whole.status == 0 and (found.status == RETURNED_ERROR or found == whole)
    if (found.status, found.fault) == (1, OUT_OF_MEMORY):
        return refused != START and whole.report.startswith(found.report)
    return found == whole or '--workers' in words and found == Answer(1, b'', NO_THREAD)


def lacks(faults: Counter[tuple[str, bytes]], words: list[str]) -> str | None:
    """The name of a result that no refused request had; `faults` counts the pairs of a kind of request and a line."""
    if faults[OF_WORKER, NO_THREAD] and not faults[OF_WORKER, OUT_OF_MEMORY]:
        return 'all memory that was refused to workers is reported as a failed thread'
    if words[0] == MANY_LINES and not faults[START, b'']:
        return 'no thread for the lines of the report was refused its start'
    return None


@pytest.fixture(scope='session')
def refuses(tmp_path_factory: pytest.TempPathFactory) -> Path:
    """The library that refuses requests."""
    if not shutil.which('cc'):
        pytest.fail('nothing is tried: there is no C compiler `cc` here', pytrace=False)
    library = tmp_path_factory.mktemp('refuses') / 'refuses.so'
    subprocess.run(['cc', '-O1', '-shared', '-fPIC', '-fno-builtin', '-o', library, REFUSES], check=True)
    return library


def pytest_generate_tests(metafunc: pytest.Metafunc) -> None:
    named: list[str] = metafunc.config.getoption('name')
    runs: list[list[str]] = [named] if named else RUNS
    metafunc.parametrize('words', runs, ids=[' '.join(it) for it in runs])


def test_each_request_is_refused(words: list[str], program: Path, refuses: Path) -> None:
    file, *arguments = words
    tested, scenario = (TOP / file, b'') if words == CALLS else (program, scenario_in(TOP / file))
    assert tested.is_file(), '%s is not built: rt ci builds it' % file
    whole, done = answer(tested, scenario, *arguments), refuses.with_name('done')
    faults: Counter[tuple[str, bytes]] = Counter()
    for number in count(1):
        refusing = ['LD_PRELOAD=%s' % refuses, 'REFUSED=%d' % number, 'DONE=%s' % done, str(tested)]
        try:
            found = answer(Path('/usr/bin/env'), scenario, *refusing, *arguments)
        except LimitMet as fault:
            pytest.fail('request %d refused: %s' % (number, fault), pytrace=False)
        if not done.exists():
            # (the library doesn't reach a program that asks for no memory at all)
            assert number > 1, 'the program makes no request that can be refused'
            break
        refused = done.read_text('ascii')
        done.unlink()
        faults[refused, found.fault] += 1
        if not may_be(found, whole, words, refused):
            pytest.fail('request %d refused: status %d, %r' % (number, found.status, found.fault[:100]), pytrace=False)
    if lacks(faults, words):
        pytest.fail(str(lacks(faults, words)), pytrace=False)
