"""Runs scenarios on the host: the host's own files are compiled once, and the programs of each scenario separately."""
from __future__ import annotations

import itertools
import shutil
import subprocess
import tempfile
from pathlib import Path

from motesim.contiki.folder import HOST, host_tables, program_files, text_of
from motesim.contiki.names import file_names
from motesim.faults import Fault
from motesim.scenario import Scenario

STANDARD = ['-std=c99', '-Wall', '-Wextra', '-Werror']
HOW_TO_INSTALL = 'there is no C compiler: on Debian `apt-get install tcc` installs one'
SECONDS = 60.0


class HostFault(Fault):
    """The programs of a scenario can't be compiled, or the host ends with a fault."""


def compilers() -> tuple[str, str]:
    """The compiler of the host's own files, and the compiler of the programs, which has to be fast."""
    found = [it for it in ('gcc', 'clang', 'cc', 'tcc') if shutil.which(it)]
    if not found:
        raise HostFault(HOW_TO_INSTALL)
    return found[0], 'tcc' if 'tcc' in found else found[0]


def called(arguments: list[str], folder: Path) -> None:
    """Calls a compiler, which must print nothing."""
    done = subprocess.run(arguments, cwd=folder, capture_output=True, text=True, errors='replace')
    if done.returncode or done.stderr:
        said = (done.stderr or done.stdout or 'it ended with status %d' % done.returncode).strip().splitlines()
        first = next((it for it in said if 'error' in it or 'warning' in it), said[0])
        raise HostFault('%s: %s' % (arguments[0], first))


class HostRuns:
    """The host, compiled into a folder. Each process that uses it works in a folder of its own."""

    def __init__(self, folder: Path, source: Path = HOST, is_optimised: bool = True):
        self.folder = folder
        self.source = source
        own, self.compiler = compilers()
        folder.mkdir(parents=True, exist_ok=True)
        for path in sorted(source.glob('*.c')):
            compiler = own if is_optimised else self.compiler
            called([compiler, *STANDARD, '-O2', '-I%s' % source, '-c', str(path)], folder)
        self.objects = [str(it) for it in sorted(folder.glob('*.o'))]
        self.strict = next((it for it in ('gcc', 'clang') if shutil.which(it)), '')
        self.number = itertools.count()

    def build(self, scenario: bytes, place: Path, compiler: str = '', options: tuple[str, ...] = ()) -> Path:
        """Compiles the programs of a scenario in a folder, and returns the executable."""
        read = Scenario.parse(scenario)
        files = program_files(read, counts_work=True)
        file_of = file_names(files)
        for name, file in files.items():
            (place / (file_of[name] + '.c')).write_text(text_of(file.lines()), 'utf-8')
        sources = []
        for name, text in host_tables(read, files):
            (place / name).write_text(text, 'utf-8')
            sources.append(name)
        called([compiler or self.compiler, *STANDARD, *options, '-I%s' % self.source, '-o', 'host_run', *sources,
                *self.objects], place)
        return place / 'host_run'

    def report(self, scenario: bytes, is_strict: bool = False) -> bytes:
        """The report of a scenario. With `is_strict` a compiler with many warnings looks at the programs too."""
        with tempfile.TemporaryDirectory(dir=self.folder) as name:
            place = Path(name)
            executable = self.build(scenario, place)
            if is_strict and self.strict:
                called([self.strict, *STANDARD, '-fsyntax-only', '-I%s' % self.source,
                        *(it.name for it in sorted(place.glob('*_host.c')))], place)
            return run_host(executable)


def run_host(executable: Path) -> bytes:
    """Returns the output of the host."""
    try:
        done = subprocess.run([executable], capture_output=True, timeout=SECONDS)
    except subprocess.TimeoutExpired:
        raise HostFault('the host ran for more than %d s' % SECONDS) from None
    if done.returncode or done.stderr:
        message = done.stderr.decode(errors='replace').strip()
        raise HostFault('the host ended with status %d: %s' % (done.returncode, message))
    return done.stdout
