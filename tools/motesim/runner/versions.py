"""The versions of the binary and of the kit of a run."""
from __future__ import annotations

import os
from functools import lru_cache
from hashlib import sha256
from pathlib import Path

from motesim.runner.programs import is_compiled, is_module, is_proved, module_program, program_of_sources, worker_of
from motesim.version import KIT, VERSION

ANOTHER = 'another with the SHA-256'


def kit_version(program: Path) -> str:
    """The Rattle kit with which the binary was proved; empty if it isn't the proved binary of this tree."""
    return KIT if is_proved(program) else ''


def program_version(program: Path) -> str:
    """The version of the binary, if the binary is this tree's; another binary is identified only by its digest."""
    if is_proved(program):
        return VERSION
    if is_compiled(program):
        return '%s unproved' % VERSION
    if is_module(program):
        return '%s in node' % VERSION
    return '%s %s' % (ANOTHER, program_digest(program))


def program_digest(program: Path) -> str:
    """The first 16 digits of the SHA-256 of a binary, or of the module that a script runs; the bytes are read once,
    unless they change."""
    if worker_of(program):
        program = program.resolve().with_suffix('.wasm')
    about = program.stat()
    return _digest(program, about.st_size, about.st_mtime_ns)


@lru_cache(maxsize=4)
def _digest(path: Path, size: int, changed: int) -> str:
    return sha256(path.read_bytes()).hexdigest()[:16]


def version_line() -> str:
    """Returns the line of `--version`: the version, and whether the binary that would run is proved."""
    named = os.environ.get('MOTESIM')
    program = Path(named) if named else program_of_sources() or module_program()
    proofs = 'the proofs of %s are for %s' % (VERSION, KIT)
    if program is None:
        return 'motesim %s, not built yet (%s)' % (VERSION, proofs)
    if is_proved(program):
        return 'motesim %s, proved with %s' % (VERSION, KIT)
    if is_compiled(program):
        return 'motesim %s, compiled, not proved (%s)' % (VERSION, proofs)
    if is_module(program):
        return 'motesim %s, as a WebAssembly module in node, not proved (%s)' % (VERSION, proofs)
    return 'tools of motesim %s with another program, %s, which MOTESIM names (%s)' % (VERSION, program, proofs)
