"""Checks that the commands of the pages print what the pages show: tools/dev/check_tutorial [PAGE ..]

The pages are those of docs/use/, README.md, the cookbook, and the worksheet of the lesson. A block of commands begins
with ```sh. The next block, which begins with ```, has the output of these commands. Commands without a block of output
must print nothing. A block that begins with ```console has commands that open a window, and is not run. A block that
begins with ```toml NAME, ```mote NAME, ```python NAME or ```c NAME is a file that the reader saves under that name.
The commands of a page are run in a separate folder, in which ./run, tools/ and examples/ exist.

Shows the difference of each block that fails.
"""
from __future__ import annotations

import os
import re
import subprocess
import tempfile
from functools import cache
from pathlib import Path

import pytest
from differences import SECONDS, check_lines
from motesim.runner.programs import TOP

# A block of commands, and the block with their output: only empty lines are between the two.
BLOCK = re.compile(r'^```(?P<info>.*)\n(?P<text>(?:.*\n)*?)```$(?:\n+```\n(?P<shown>(?:.*\n)*?)```$)?', re.M)
SAVED = re.compile(r'(?:toml|mote|python|c) ([a-z_.]+[.](?:toml|mote|py|c))')
OTHERS = [TOP / it for it in ('README.md', 'examples/cookbook/README.md', 'examples/lesson/WORKSHEET.md')]
RUN = '#!/bin/sh\nexec "$MOTESIM" "$@"\n'
# The status of `timeout` after a command that it has ended.
TIMED_OUT = 124


def blocks_of(page: str) -> list[re.Match[str]]:
    """The blocks of a page."""
    blocks, fences = list(BLOCK.finditer(page)), re.findall('^```', page, re.M)
    assert len(fences) == sum(2 if it['shown'] is None else 4 for it in blocks), 'a block of the page has no end'
    return blocks


def has_commands(block: re.Match[str]) -> bool:
    return block['info'].split()[:1] == ['sh']


def printed_by(commands: str, folder: Path, program: Path) -> str:
    """The output of commands, on both streams."""
    environment = {'PYTHONDONTWRITEBYTECODE': '1', **os.environ, 'MOTESIM': str(program), 'LC_ALL': 'C.UTF-8'}
    done = subprocess.run(['timeout', str(SECONDS), 'bash', '-c', commands], cwd=folder, env=environment,
                          stdin=subprocess.DEVNULL, stdout=subprocess.PIPE, stderr=subprocess.STDOUT)
    text = done.stdout.decode('utf-8', 'backslashreplace')
    if done.returncode == TIMED_OUT:
        text += '\nnot finished after %d seconds' % SECONDS
    return text if text.endswith('\n') or not text else text + '\n'


@cache
def outputs_of(page: str, program: Path) -> list[str]:
    """The output of each block of commands of a page."""
    outputs = []
    with tempfile.TemporaryDirectory() as name:
        folder = Path(name)
        for link in 'tools', 'examples':
            (folder / link).symlink_to(TOP / link)
        (folder / 'run').write_text(RUN, 'ascii')
        (folder / 'run').chmod(0o755)
        for block in blocks_of(page):
            saved = SAVED.fullmatch(block['info'])
            if saved:
                (folder / saved[1]).write_text(block['text'], 'utf-8')
            if has_commands(block):
                outputs.append(printed_by(block['text'], folder, program))
    return outputs


def pytest_generate_tests(metafunc: pytest.Metafunc) -> None:
    """Has a test for each block of commands. Those of a page run in one process, one after the other."""
    names, tests = metafunc.config.getoption('name'), []
    for path in map(Path, names) if names else [*sorted(TOP.glob('docs/use/*.md')), *OTHERS]:
        page = path.read_text('utf-8')
        for number, block in enumerate(filter(has_commands, blocks_of(page))):
            line = page.count('\n', 0, block.start('text')) + 1
            tests.append(pytest.param(page, number, block['shown'] or '', id='%s, line %d' % (path.name, line),
                                      marks=pytest.mark.xdist_group(path.name)))
    metafunc.parametrize(('page', 'number', 'shown'), tests)


def test_commands(page: str, number: int, shown: str, program: Path) -> None:
    check_lines('the output of the commands', shown.split('\n'), outputs_of(page, program)[number].split('\n'))
