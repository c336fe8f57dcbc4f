"""Runs the built program on the cases of tests/cases and compares its output: tools/dev/run_cases [NAME ..]

NAME is a case, `nets/two_senders`, or a folder of cases, `nets`; without a name all are run. tests/cases/README.md
describes the files of a case. For each failing case, the command shows the first run that fails, with the lines that
differ. A case without an expected output fails too, and so does a file that belongs to no case.
"""
from __future__ import annotations

import runpy
from collections.abc import Iterator
from functools import cached_property
from pathlib import Path
from typing import Any

import pytest
from differences import answer, check_answer
from motesim.runner import Answer
from motesim.runner.programs import is_compiled, is_module

CASES = Path(__file__).parent / 'cases'
INPUTS, EXPECTED = ('.toml', '.make', '.runs'), ('.expected', '.stderr', '.status')
KINDS = (*INPUTS, *EXPECTED, '.stack')
NO_SCENARIO = b'this is not a scenario\n'


def as_bytes(text: str | bytes) -> bytes:
    return text.encode() if isinstance(text, str) else text


class Case:
    """The files of one name."""

    def __init__(self, path: Path):
        self.path = path
        self.files = {kind: path.with_suffix(kind) for kind in KINDS if path.with_suffix(kind).is_file()}

    def read(self, kind: str) -> bytes:
        return self.files[kind].read_bytes() if kind in self.files else b''

    @cached_property
    def made(self) -> dict[str, Any]:
        """The definitions of NAME.make."""
        return runpy.run_path(str(self.files['.make'])) if '.make' in self.files else {}

    def check_files(self) -> None:
        """Fails unless there is exactly one input to run, and exactly one expectation."""
        kinds = self.files.keys()
        has_expectation = bool(kinds & set(EXPECTED))
        faults = {
            'the file belongs to no case': self.path.is_file(),
            'there is nothing to run': not kinds & set(INPUTS),
            'there are both .toml and .make': {'.toml', '.make'} <= kinds,
            'there is no expectation': not has_expectation and not self.made.keys() & {'expected', 'table'},
            'a table has to tell all that is expected':
                'table' in self.made and (has_expectation or not self.made['table']()),
        }
        for fault, is_so in faults.items():
            if is_so:
                pytest.fail(fault, pytrace=False)

    def runs(self) -> list[list[str]]:
        """The arguments of each run."""
        return [line.split() for line in self.read('.runs').decode().splitlines()] or [[]]

    def scenarios(self) -> Iterator[tuple[str, bytes, Answer]]:
        """Each scenario with its name and the expected answer."""
        if 'table' in self.made:
            for name, scenario, status, output, errors in self.made['table']():
                yield name, as_bytes(scenario), Answer(status, as_bytes(output), as_bytes(errors))
        else:
            scenario = as_bytes(self.made['scenario']()) if self.made else self.read('.toml')
            output = as_bytes(self.made['expected']()) if 'expected' in self.made else self.read('.expected')
            yield '', scenario, Answer(int(self.read('.status') or 0), output, self.read('.stderr'))

    def answer(self, program: Path, scenario: bytes, *arguments: str) -> Answer:
        """The answer of a run with the size of stack that the case asks for."""
        stack = self.read('.stack').decode().strip()
        # (a binary without a proof has checks that need more stack)
        if stack and not (is_compiled(program) or is_module(program)):
            limited = 'ulimit -s "$0" && exec "$@"'
            return answer(Path('/bin/sh'), scenario, '-c', limited, stack, str(program), *arguments)
        return answer(program, scenario, *arguments)


def all_cases() -> list[Path]:
    """The paths of all cases, without an ending, and the files that belong to none."""
    files = [it for it in CASES.rglob('*') if it.is_file() and it.name != 'README.md']
    return sorted({it.with_suffix('') if it.suffix in KINDS else it for it in files})


def pytest_generate_tests(metafunc: pytest.Metafunc) -> None:
    """Has a test for each case that has one of the names, or is in a folder of that name."""
    names = {CASES / it for it in metafunc.config.getoption('name')}
    chosen = [it for it in all_cases() if not names or names & {it, *it.parents}]
    for name in names.difference(*({it, *it.parents} for it in chosen)):
        raise pytest.UsageError('there is no case %s' % name.relative_to(CASES))
    metafunc.parametrize('case', map(Case, chosen), ids=[str(it.relative_to(CASES)) for it in chosen])


def is_for_module(words: list[str]) -> bool:
    """Returns whether the module takes these arguments: a file, and no options."""
    given = words[1:] if words[:1] == ['--'] else words
    return len(given) < 2 and (given != words or not given or given[0] == '-' or not given[0].startswith('-'))


def test_case(case: Case, program: Path, tmp_path: Path) -> None:
    case.check_files()
    file = tmp_path / 'scenario.toml'
    runs = [it for it in case.runs() if is_for_module(it) or not is_module(program)]
    if not runs:
        pytest.skip('node runs the module, which takes a file, and no options')
    for name, scenario, expected in case.scenarios():
        file.write_bytes(scenario)
        for words in runs:
            given = NO_SCENARIO if '{}' in words else scenario
            found = case.answer(program, given, *(str(file) if word == '{}' else word for word in words))
            check_answer(' '.join(filter(None, [case.path.name, name, *words])), expected, found)
