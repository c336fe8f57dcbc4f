"""The commands of tools/dev that call pytest; pytest replaces their process."""
from __future__ import annotations

import ast
import os
import sys
from argparse import SUPPRESS
from pathlib import Path
from typing import NoReturn

from motesim.packages import SYSTEM, has
from motesim.command import command
from motesim.faults import Fault
from motesim.words import words_of
from motesim.runner.programs import TOP, program_path

TESTS = TOP / 'tools/tests'
# The names that a module of tests/ may get, for its help; None if its tests have no names.
NAMES = {'test_memory.py': 'a scenario, and -- with arguments of motesim if there are any; without a name, the small '
                           'scenarios',
         'test_spoiled_bytes.py': None}
CASES = 'selects tests, as the text above says; without a name, all are run'
MINUTES = 60
NO_PYTEST = ('the tests need pytest: on Debian `apt-get install python3-pytest python3-pytest-xdist` installs it '
             'for %s (./test, as root, installs all that the tests need)' % SYSTEM)
# Pytest writes no file into the tree; each of its lines says which test failed, and why.
FLAGS = ['-qq', '--no-header', '--tb=short', '-rN', '-p', 'no:cacheprovider', '-W',
         'ignore::pytest.PytestUnhandledThreadExceptionWarning']


def pytest(together: str) -> list[str]:
    """The arguments that call pytest. The tests of a class, or of another `scope` or `group`, run in one process; with
    TEST_JOBS=0 all do."""
    python = next((it for it in (sys.executable, SYSTEM) if has('pytest', it)), None)
    if python is None:
        raise Fault(NO_PYTEST)
    jobs = int(os.environ.get('TEST_JOBS') or os.cpu_count() or 1)
    # (with one process, pytest-xdist hangs if a test kills it)
    parallel = ['-n', str(jobs), '--dist', 'load' + together] if jobs > 1 and has('xdist', python) else []
    return [python, '-m', 'pytest', *FLAGS, *parallel]


def become(called: list[str], **environment: str) -> NoReturn:
    """Replaces this process by another command. The tools that it starts find this interpreter first: `python3` may be
    a script that looks for the interpreter at each start, as pyenv's is, and needs as long as a tool itself."""
    path = os.pathsep.join([str(Path(sys.executable).parent), os.environ.get('PATH', os.defpath)])
    os.execvpe(called[0], called, {'PYTHONDONTWRITEBYTECODE': '1', **os.environ, 'PATH': path, **environment})


def asked_of(module: Path, named: str | None) -> tuple[list[str], list[str]]:
    """The names that a command gets, and the options that it passes on to pytest; its help begins with the module's
    text, and leaves names out if the command can't use them."""
    words = words_of(ast.get_docstring(ast.parse(module.read_text('utf-8'))))
    words.add_argument('names', nargs='*', metavar='NAME', help=named or SUPPRESS)
    words.epilog = 'Other options are passed on to pytest, each in one word: -x, -kWORD.'
    asked, others = words.parse_known_args()
    return asked.names, others


def check(module: Path) -> NoReturn:
    """Tests the built motesim with a module of tests/."""
    named = NAMES.get(module.name, CASES)
    names, others = asked_of(module, named)
    if names and named is None:
        raise Fault('this command makes all its tests, and can\'t select %s: leave it out' % ' '.join(names))
    become([*pytest('group'), str(module), *others, *('--name=' + it for it in names)],
           MOTESIM=str(program_path().resolve()))


def check_with(module: str) -> NoReturn:
    """Runs the command of a module of tests/."""
    command(Path(sys.argv[0]).name)(lambda: check(TOP / 'tests' / module))()


@command('test_tools')
def test_tools() -> NoReturn:
    names, others = asked_of(TESTS / 'conftest.py', 'a file of tools/tests, or a part of its name; without a name, all')
    chosen = [it.name for it in sorted(TESTS.glob('test_*.py')) if not names or any(name in it.stem for name in names)]
    if not chosen:
        raise Fault('no file of tests has a name with %s' % ', '.join(names))
    os.chdir(TESTS)
    become(['timeout', '--kill-after=10s', '%dm' % MINUTES, *pytest('scope'), *others, *chosen])
