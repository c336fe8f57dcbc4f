"""The place of the tests: the tools that they test are found from here, and called in a folder of a test."""
import contextlib
import os
import pkgutil
import pty
import runpy
import select
import signal
import subprocess
import sys
import tempfile
import time
import unittest
from collections.abc import Callable, Mapping
from functools import cache
from importlib import import_module
from pathlib import Path
from typing import Any, IO, NoReturn

TOOLS = Path(__file__).resolve().parent.parent
TOP = TOOLS.parent
sys.path.insert(0, str(TOOLS))
# (a line that tools say once a day is said each time)
os.environ['MOTESIM_SEEN'] = os.devnull + '/none'
# No outcome of a test depends on how fast the machine is. A test waits for what happens (a file, a line, an end), never
# for a time; what goes on meanwhile waits for the test (HOLDS); and a limit is SECONDS, which nothing needs, or ends
# what would never end by itself. (test_layers.py looks for other times.)
SECONDS = 1800
# A line of shell that waits until there is a file with the script's name and `.go`, or until the script is removed.
HOLDS = 'while [ -e "$0" ] && ! [ -e "$0.go" ]; do sleep 0.1; done'


def until(is_so: Callable[[], object]) -> bool:
    """Returns whether something becomes true."""
    end = time.monotonic() + SECONDS
    while not (has_become := is_so()) and time.monotonic() < end:
        time.sleep(0.02)
    return bool(has_become)


def work_of(do: Callable[[], object]) -> float:
    """The processor time of a call, as a multiple of the time that this machine needs for a loop of a million turns."""
    begun = time.process_time()
    do()
    done = time.process_time()
    for _ in range(1_000_000):
        pass
    return (done - begun) / (time.process_time() - done)


@cache
def load_tools() -> None:
    """Loads the modules of the tools and finds the built programs, which forked processes need not do again."""
    import motesim
    import motesim.progress as progress
    for module in pkgutil.walk_packages(motesim.__path__, 'motesim.'):
        import_module(module.name)
    from motesim.runner.programs import CHECKER, PROGRAM, ProgramFault, program_path
    for name in PROGRAM, CHECKER:
        with contextlib.suppress(ProgramFault):
            program_path(name)
    # (a slow machine shows no more of the progress than a fast one)
    progress.ELSEWHERE = SECONDS


def become_tool(path: Path, words: tuple[str, ...], cwd: Path | str | None, env: Mapping[str, str] | None,
                streams: list[IO[bytes]]) -> NoReturn:
    """Runs a tool in this forked process, as a new process would, and ends it."""
    status = 1
    try:
        for number, stream in enumerate(streams):
            os.dup2(stream.fileno(), number)
        made: list[Any] = [open(number, mode, encoding='utf-8', errors=errors, closefd=False)
                           for number, mode, errors in
                           ((0, 'r', 'strict'), (1, 'w', 'strict'), (2, 'w', 'backslashreplace'))]
        sys.stdin, sys.stdout, sys.stderr = made
        os.chdir(cwd or '.')
        if env is not None:
            os.environ.clear()
            os.environ.update(env)
        sys.argv, sys.path[0] = [str(path), *words], str(path.parent)
        try:
            runpy.run_path(str(path), run_name='__main__')
            status = 0
        except SystemExit as end:
            status = end.code if isinstance(end.code, int) else 0
        except BaseException:
            sys.excepthook(*sys.exc_info())
        for written in sys.stdout, sys.stderr:
            written.flush()
    finally:
        os._exit(status)


def call(tool: str, *words: str, cwd: Path | str | None = None, env: Mapping[str, str] | None = None, input: str = '',
         timeout: float = SECONDS, check: bool = False) -> subprocess.CompletedProcess[str]:
    """Runs a tool in a process of its own, which is forked: a new one would need most of its time to load modules."""
    load_tools()
    path = TOOLS / tool
    with tempfile.TemporaryFile() as given, tempfile.TemporaryFile() as out, tempfile.TemporaryFile() as err:
        given.write(input.encode())
        given.seek(0)
        child = os.fork()
        if child == 0:
            become_tool(path, words, cwd, env, [given, out, err])
        ended = os.pidfd_open(child)
        try:
            is_late = not select.select([ended], [], [], timeout)[0]
            if is_late:
                os.kill(child, signal.SIGKILL)
            status = os.waitstatus_to_exitcode(os.waitpid(child, 0)[1])
        finally:
            os.close(ended)
        texts = []
        for stream in out, err:
            stream.seek(0)
            texts.append(stream.read().decode())
    done = subprocess.CompletedProcess([str(path), *words], status, *texts)
    if is_late:
        raise subprocess.TimeoutExpired(done.args, timeout, *texts)
    if check:
        done.check_returncode()
    return done


def on_terminal(words: list[str], cwd: Path, env: Mapping[str, str]) -> tuple[int, str]:
    """The status of a program, and what it writes on a terminal, to which standard output goes too."""
    ours, its = pty.openpty()
    done = subprocess.run(words, cwd=cwd, stdin=subprocess.DEVNULL, stdout=its, stderr=its, timeout=SECONDS, env=env)
    os.close(its)
    said = b''
    with contextlib.suppress(OSError):
        while data := os.read(ours, 65536):
            said += data
    os.close(ours)
    return done.returncode, said.decode().replace('\r\n', '\n')


def room_of(test: unittest.TestCase) -> Path:
    """A folder that is removed with the test."""
    room = tempfile.TemporaryDirectory()
    test.addCleanup(room.cleanup)
    return Path(room.name).resolve()


def scenario_of(program: str, *places: tuple[int, int], end: int = 60, more: str = '') -> str:
    """A scenario of version 2 whose motes, at these places, all run a program p: its text begins on line 7, or after
    further lines of `more`."""
    motes = ', '.join('{ x = %d, y = %d, program = "p" }' % it for it in places or [(0, 0)])
    return ('version = 2\nend = %d\nmedium = { range = 10, base = 2, per = 100, collide = false }\nmote = [%s]\n%s'
            "[programs]\np = '''\n%s'''\n" % (end, motes, more, program))


def text_of(name: str) -> str:
    """A text of this folder: a report, a program, or a page."""
    return (TOOLS / 'tests/texts' / name).read_text('utf-8')


def rows_of(name: str) -> list[tuple[str, ...]]:
    r"""The rows of a table of cases in this folder, with a tab between two cells, which may have line ends as `\n`;
    lines with `#` are remarks."""
    lines = (TOOLS / 'tests' / name).read_text('utf-8').splitlines()
    return [tuple(it.replace('\\n', '\n').split('\t')) for it in lines if it and not it.startswith('#')]


class Room(unittest.TestCase):
    """Tests in a folder of their own."""

    def setUp(self) -> None:
        self.room = room_of(self)

    def put(self, name: str, text: str = '') -> Path:
        """Writes a file, in a folder that is made if it isn't there."""
        path = self.room / name
        path.parent.mkdir(parents=True, exist_ok=True)
        path.write_text(text, 'utf-8')
        return path

    def put_program(self, name: str, text: str, shell: str = '/bin/sh') -> Path:
        """Writes a script that can be run."""
        path = self.put(name, '#!%s\n%s\n' % (shell, text))
        path.chmod(0o755)
        return path

    def tool(self, name: str, *words: str, **more: str) -> subprocess.CompletedProcess[str]:
        """Runs a tool in the folder, with these variables in its environment too."""
        return call(name, *words, cwd=self.room, env={**os.environ, **more})
