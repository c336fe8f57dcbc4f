"""The main paths of the tools where the system has only what POSIX has: what Linux adds is hidden from them.

Nobody has tried macOS yet. This test shows that no tool needs `/proc`, memfd_create, pidfd_open, prctl, the clock of
another process, or the command setpriv.
"""
import os
import shlex
import shutil
import signal
import subprocess
import sys
import urllib.request
from pathlib import Path

import pytest
from here import SECONDS, TOOLS, TOP, scenario_of
from skips import need

# Runs a tool, given by its path and words, without these.
HIDES = '''
import builtins, ctypes, io, os, runpy, sys, time

def hidden(call):
    def seen(path, *its, **named):
        if isinstance(path, (str, bytes)) and os.fsdecode(path).startswith(('/proc', '/dev/fd', '/dev/shm', '/sys')):
            raise FileNotFoundError(2, 'No such file or directory', path)
        return call(path, *its, **named)
    return seen

def clock_gettime(number, call=time.clock_gettime):
    if number < 0:
        raise OSError(22, 'Invalid argument')
    return call(number)

class Library(ctypes.CDLL):
    def __getattr__(self, name):
        if name == 'prctl':
            raise AttributeError(name)
        return super().__getattr__(name)

for name in 'memfd_create', 'pidfd_open', 'sched_getaffinity', 'waitid', 'eventfd', 'splice':
    if hasattr(os, name):
        delattr(os, name)
builtins.open = io.open = hidden(open)
for name in 'open', 'stat', 'lstat', 'listdir', 'scandir', 'access', 'readlink':
    setattr(os, name, hidden(getattr(os, name)))
time.clock_gettime, ctypes.CDLL = clock_gettime, Library
del sys.argv[0]
sys.path.insert(0, os.path.dirname(sys.argv[0]))
runpy.run_path(sys.argv[0], run_name='__main__')
'''
PLAN = '''
end = 60
medium = { range = 10, base = 2, per = 100 }
parameters = { period = 4 }
places = { rule = "line", count = 3, step = 10, program = "p.mote" }
sweep = { vary = { period = "1..6" }, measure = ["prints", "seen = holds: mote 1 prints p"] }
'''
PROGRAM = ('process p; autostart p; receiver p; '
           'code p { body { send ${period}; yield_until is(packet); print data; } }\n')
SHRINK = 'shrink news.toml "mote 2 prints news 7" --fault "link 1 to 2 is broken" --fault "link 4 to 2 is broken"'


@pytest.fixture
def room(tmp_path: Path) -> Path:
    need('node', 'nodejs')
    for name in 'news.toml', 'news.expect.toml':
        shutil.copy(TOP / 'examples' / name, tmp_path)
    (tmp_path / 'net.plan.toml').write_text(PLAN)
    (tmp_path / 'p.mote').write_text(PROGRAM)
    (tmp_path / 'wrong.toml').write_text(scenario_of('process a; autostart a; code a { body { prnt 1; } }'))
    (tmp_path / 'solutions').mkdir()
    shutil.copy(TOP / 'examples/news.toml', tmp_path / 'solutions/anna.toml')
    return tmp_path


def called(command: str) -> list[str]:
    return [sys.executable, '-Bc', HIDES, *shlex.split('%s/%s' % (TOOLS, command))]


def environment(room: Path) -> dict[str, str]:
    bare = room / 'bin'
    bare.mkdir()
    for name in 'node', 'env', 'sh':
        (bare / name).symlink_to(str(shutil.which(name)))
    return {'PATH': str(bare), 'HOME': str(room), 'MOTESIM_SEEN': os.environ['MOTESIM_SEEN'],
            'MOTESIM': str(TOP / 'web/motesim'), 'MOTECHECK': str(TOP / 'web/motecheck')}


@pytest.mark.parametrize('command, status, said', [
    ('run_program news.toml', 0, 'left 0'), ('run_program wrong.toml', 2, 'Did you mean `print`?'),
    ('expect news.toml', 0, '0 failed'), ('summary news.toml', 0, 'received'), ('explain news.toml', 0, 'no error'),
    ('timeline news.toml', 0, 'news.html'), ('log news.toml', 0, 'news'),
    ('why news.toml "mote 2 prints news 7"', 0, 'news'),
    ('compare news.toml news.toml', 0, 'same'),
    ('sweep net.plan.toml --jobs 2', 0, '6 runs, 6 of them now, 0 with an error'),
    ('search news.toml --links --most-runs 9 --jobs 2', 2, 'NOT'), (SHRINK, 0, 'news.small.toml breaks'),
    ('grade solutions news.expect.toml --jobs 2', 0, 'anna'), ('motecheck --links news.toml claims', 0, 'covered')])
def test_a_tool_needs_nothing_that_only_linux_has(command: str, status: int, said: str, room: Path) -> None:
    (room / 'claims').write_text('mote 1: at least 1 line "print process news"\n')
    done = subprocess.run(called(command), cwd=room, env=environment(room), text=True, capture_output=True)
    assert (done.returncode, said in done.stdout + done.stderr) == (status, True), done.stdout + done.stderr


def test_the_studio_needs_nothing_that_only_linux_has(room: Path) -> None:
    with subprocess.Popen(called('studio news.toml --no-open'), cwd=room, env=environment(room), text=True,
                          stdout=subprocess.PIPE, stderr=subprocess.PIPE) as studio:
        assert studio.stdout
        address = studio.stdout.readline().strip()
        with urllib.request.urlopen(address) as page:
            assert page.status == 200
        asked = urllib.request.Request(address + 'begin', b'{}', {'Content-Type': 'application/json'})
        with urllib.request.urlopen(asked) as answer:
            assert b'process news' in answer.read()
        studio.send_signal(signal.SIGINT)
        assert studio.wait(SECONDS) == 0
