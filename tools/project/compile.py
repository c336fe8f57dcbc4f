"""Compiles `motesim` and `motecheck` without proving them, if no binaries of these sources are built. ./run uses
this module.

The binaries are kept in out/programs by digests of the sources (motesim.runner.programs). `python3 -m project.compile`
compiles both.
"""
from __future__ import annotations

import os
import shutil
import sys
import tempfile
import time
from pathlib import Path

from motesim.faults import Fault
from motesim.runner.programs import PROGRAM, PROGRAMS, TOP, compiled_kept, is_program, programs_in
from project import kit
from project.running import end_on_signals, locked

COMPILING = 'motesim is not built yet: compiling it, without a proof; this needs one or two minutes'
# The file that the process which compiles a binary has locked.
COMPILES = PROGRAMS / 'compiling.lock'
WAITING = 'another run is compiling the program; this one waits for it'


def make(kept: Path) -> None:
    """Makes the binary, and keeps it once it is complete."""
    for left in PROGRAMS.glob('room-*'):
        # (a killed process may have left it)
        shutil.rmtree(left, ignore_errors=True)
    began = time.time()
    with tempfile.TemporaryDirectory(prefix='room-', dir=PROGRAMS) as room:
        made = Path(room) / kept.name
        said = kit.compiled(kept.name, TOP, Path(room), made, Path(room) / 'parts')
        if said is not None:
            raise Fault('the program was not compiled, as these lines say:\n%s' % said.rstrip())
        # (a source that is edited meanwhile is newer than the binary)
        os.utime(made, (began, began))
        shutil.rmtree(kept.parent, ignore_errors=True)
        kept.parent.mkdir()
        os.replace(made, kept)


def compile_program(name: str = PROGRAM) -> Path:
    """Compiles a binary of these sources, unless it is compiled already, and returns its path."""
    end_on_signals()
    kept = compiled_kept(TOP, name)
    with locked(COMPILES, 'motesim: ' + WAITING):
        if not is_program(kept):
            for line in (COMPILING.replace(PROGRAM, name), *kit.warnings()):
                print('motesim: %s' % line, file=sys.stderr, flush=True)
            make(kept)
    return kept


if __name__ == '__main__':
    for program in programs_in():
        compile_program(program)
