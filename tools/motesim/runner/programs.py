"""The binaries of motesim and motecheck that all tools run, and the place of kept binaries.

`program_path` returns the binary that MOTESIM names; otherwise the proved binary of these sources, if it has been
built; otherwise one that was compiled without a proof, and then prints a line about this. `program_path(CHECKER)` does
the same for motecheck and MOTECHECK. Binaries are kept in out/programs by a digest of what they were made from:

    proved-DIGEST/NAME      built by `./prove` or `./test`; the digest is of the sources, contracts and proofs
    compiled-DIGEST/NAME    compiled without a proof; the digest is of the sources

If there is none, the tools run the script web/NAME, which runs the WebAssembly module of these sources in node. The
module has the same answers, and needs longer for them.

A binary in this folder is complete, and never changes.
"""
from __future__ import annotations

import contextlib
import functools
import hashlib
import os
import shutil
import sys
import time
from collections.abc import Sequence
from pathlib import Path

from motesim.faults import Fault
from motesim.home import TOP as TOP
from motesim.runner.module import SOURCES, read_about, script_of

PROGRAM, CHECKER = 'motesim', 'motecheck'
DAY = 86_400
PROGRAMS = TOP / 'out/programs'
CODE, ALL_PARTS = ('src',), ('src', 'specs', 'proofs')
# (./run has this line too, for machines without Python)
NOT_PROVED = 'this program is compiled, not proved; ./prove proves it here'
IN_NODE = 'node runs the WebAssembly module of motesim, which isn\'t proved, and takes longer than a compiled motesim'
NOT_COMPILED = '{0} isn\'t compiled yet: start ./run FILE.toml once, which compiles it within a minute or so; ' \
               'or name a compiled {0} in the environment variable {1}'
NO_NODE = 'without the Rattle kit, which compiles {0}, a WebAssembly module can run: install node (on Debian ' \
          '`apt-get install nodejs`), or open {3} in a browser'
OTHER_SOURCES = 'there is no Rattle kit here, which compiles {0}, and web/{0}.wasm was made from other ' \
                'sources than those in crates/; to run it nevertheless, set the environment variable {1} to {2}'


class ProgramFault(Fault):
    """motesim can't be run, or refuses the scenario."""


def built_by_proof(name: str = PROGRAM) -> Path:
    """The binary that a proof builds; the next proof replaces it."""
    return TOP / 'crates' / name / 'out' / name


def is_program(path: Path) -> bool:
    return path.is_file() and os.access(path, os.X_OK)


# Sources.

def _rows_of_crates(top: Path) -> dict[str, str]:
    """The rows of crates.txt, by the names of their crates. A row has a name, options, and the crates that it uses."""
    rows = (it.partition('#')[0].strip() for it in (top / 'crates.txt').read_text('utf-8').splitlines())
    return {row.partition(':')[0].split()[0]: row for row in rows if row}


def programs_in(top: Path = TOP) -> list[str]:
    """The programs that a tree has."""
    return [name for name in (PROGRAM, CHECKER) if name in _rows_of_crates(top)]


def crates_of_program(top: Path, *programs: str) -> list[str]:
    """The crates from which programs are made, in the order of their names."""
    rows, found, left = _rows_of_crates(top), set[str](), list(programs or [PROGRAM])
    while left:
        name = left.pop()
        # (a name without a row is a library of the kit)
        if name in rows and name not in found:
            found.add(name)
            left += rows[name].partition(':')[2].split()
    return sorted(found)


def digest(top: Path = TOP, parts: Sequence[str] = CODE, program: str = 'motesim') -> str:
    """A digest of these parts of all crates from which a program is made, and of their rows in crates.txt."""
    rows, found = _rows_of_crates(top), hashlib.sha256()
    for crate in crates_of_program(top, program):
        found.update(b'%s\n' % rows[crate].encode())
        for part in parts:
            for path in sorted((top / 'crates' / crate / part).rglob('*')):
                if path.is_file():
                    data = path.read_bytes()
                    found.update(b'%s %d\n' % (os.fsencode(path.relative_to(top)), len(data)))
                    found.update(data)
    return found.hexdigest()[:24]


def last_change(top: Path = TOP) -> int:
    """The time at which a source, contract or proof of a tree was changed last, in nanoseconds."""
    folders = [it for part in ALL_PARTS for it in top.glob('crates/*/' + part)]
    found = [os.path.join(at, name) for folder in folders for at, _, names in os.walk(folder) for name in ('', *names)]
    return max(os.stat(it).st_mtime_ns for it in [*found, str(top / 'crates.txt')])


# (a process asks for two programs of the same sources)
_last_change_here = functools.cache(last_change)


def is_newer_than_sources(program: Path) -> bool:
    """Returns whether a binary exists, and no source, contract or proof has changed since it was built."""
    return is_program(program) and _last_change_here() <= program.stat().st_mtime_ns


# Kept binaries.

def keep_whole(given: Path, kept: Path) -> None:
    """Copies a binary to its place: first under another name, so that the file is always complete."""
    kept.parent.mkdir(parents=True, exist_ok=True)
    new = kept.with_name('%s.%d' % (kept.name, os.getpid()))
    try:
        shutil.copy2(given, new)
        os.replace(new, kept)
    finally:
        new.unlink(missing_ok=True)


def _same(one: Path, other: Path) -> bool:
    """Returns whether one of two binaries is a copy of the other, by their sizes and times."""
    about, of_other = one.stat(), other.stat()
    return (about.st_size, about.st_mtime_ns) == (of_other.st_size, of_other.st_mtime_ns)


@functools.cache
def compiled_kept(top: Path = TOP, name: str = PROGRAM) -> Path:
    """The place of the binary that is compiled from these sources without a proof."""
    return top / 'out/programs' / ('compiled-' + digest(top, program=name)) / name


@functools.cache
def proved_kept(top: Path = TOP, name: str = PROGRAM) -> Path:
    """The place of the proved binary of these sources."""
    return top / 'out/programs' / ('proved-' + digest(top, ALL_PARTS, name)) / name


def proved_program(name: str = PROGRAM) -> Path | None:
    """The proved binary of these sources, if it has been built; it is copied to its place."""
    built, kept = built_by_proof(name), list(PROGRAMS.glob('proved-*/' + name))
    if is_newer_than_sources(built):
        for it in kept:
            if is_program(it) and _same(it, built):
                return it
        try:
            keep_whole(built, proved_kept(TOP, name))
        except OSError:
            # (a tree to which nothing can be written)
            return built
    elif not kept:
        return None
    return proved_kept(TOP, name) if is_program(proved_kept(TOP, name)) else None


def compiled_program(name: str = PROGRAM) -> Path | None:
    """The binary that was compiled from these sources without a proof."""
    return compiled_kept(TOP, name) if any(PROGRAMS.glob('compiled-*/' + name)) and is_program(
        compiled_kept(TOP, name)) else None


def program_of_sources(may_be_proved: bool = True, name: str = PROGRAM) -> Path | None:
    """The binary of these sources to run, or None if none has been built."""
    if not (TOP / 'crates.txt').is_file():
        return None
    return (proved_program(name) if may_be_proved else None) or compiled_program(name)


@functools.cache
def module_program(name: str = PROGRAM) -> Path | None:
    """The script that runs the WebAssembly module of these sources, if node is here."""
    about = read_about(name) if name in SOURCES and is_program(script_of(name)) and shutil.which('node') else None
    is_installed = not (TOP / 'crates.txt').is_file()
    is_own = about and (is_installed or about.sources == digest(TOP, CODE, SOURCES[name]))
    return script_of(name) if is_own else None


def nothing_runs(name: str = PROGRAM) -> str:
    """Why a program can't run here, and what to do."""
    if shutil.which('rt'):
        found = NOT_COMPILED
    else:
        found = OTHER_SOURCES if shutil.which('node') and read_about(name) else NO_NODE
    return found.format(name, name.upper(), script_of(name), TOP / 'web/motesim.html')


@functools.lru_cache(maxsize=8)
def worker_of(program: Path) -> Path | None:
    """The script with which node makes many runs of a module; None for a program that isn't the script of a module."""
    there = program.resolve()
    worker = there.with_name('worker.js')
    return worker if there.name in SOURCES and worker.is_file() else None


def is_module(program: Path) -> bool:
    """Returns whether a program is the script that runs the WebAssembly module."""
    return program.resolve() in [script_of(name).resolve() for name in SOURCES]


def _is_kept_as(kind: str, program: Path) -> bool:
    return program.parent.parent == PROGRAMS.resolve() and program.parent.name.startswith(kind)


def is_proved(program: Path) -> bool:
    """Returns whether a binary was built by a proof in this tree."""
    program = program.resolve()
    return program == built_by_proof().resolve() or _is_kept_as('proved-', program)


def is_compiled(program: Path) -> bool:
    """Returns whether a binary was compiled here without a proof."""
    return _is_kept_as('compiled-', program.resolve())


def is_said_today() -> bool:
    """True if the line was printed for this user of this machine within the last day; notes that it is printed now."""
    cache = os.environ.get('XDG_CACHE_HOME') or os.path.expanduser('~/.cache')
    note = Path(os.environ.get('MOTESIM_SEEN') or Path(cache) / 'motesim/said')
    try:
        if 0 <= time.time() - note.stat().st_mtime < DAY:
            return True
    except OSError:
        pass
    with contextlib.suppress(OSError):
        note.parent.mkdir(parents=True, exist_ok=True)
        note.touch()
    return False


@functools.cache
def say_not_proved(line: str) -> None:
    """Prints, once a day, that the program isn't the proved one. (A tree's ./run prints it each time.)"""
    if not is_said_today():
        print('motesim: ' + line, file=sys.stderr, flush=True)


def program_path(name: str = PROGRAM) -> Path:
    """The binary to run: the one that the environment variable of this name, such as MOTESIM, names, or that of these
    sources."""
    named = os.environ.get(name.upper())
    if named:
        if not is_program(Path(named)):
            raise ProgramFault('there is no program %s (the environment variable %s names it)' % (named, name.upper()))
        return Path(named)
    return _program_here(name)


@functools.cache
def _program_here(name: str) -> Path:
    """The binary of these sources. A process uses the same one even if the sources change."""
    found = program_of_sources(name=name) or module_program(name)
    if found is None:
        raise ProgramFault(nothing_runs(name))
    if is_module(found):
        say_not_proved(IN_NODE)
    elif is_compiled(found):
        say_not_proved(NOT_PROVED)
    return found
