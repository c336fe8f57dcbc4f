"""The last verdict on each mutant, with a digest of the texts: docs/proof/wrong_bodies.tsv.

A line has the mutant, the day, the verdict, the refused function, the goals or the error for which it was refused, a
digest, and the processor seconds of the longest check of the crate's mutants so far, the control included, or 0. The
digest is of what the verdict is about:

- the mutant, without its remarks;
- the files that it changes;
- the definitions that the contracts in these files name, and all that these definitions name;
- the logic of the kit.

Comments and imports never count, nor do the names and the places of files and crates.
"""
from __future__ import annotations

import hashlib
import re
import time
from collections.abc import Iterable, Mapping
from functools import cache
from pathlib import Path
from typing import NamedTuple

from project.kit import version
from project.mutants.checks import CONTRACT, OPEN, Verdict
from project.mutants.edits import Edit
from motesim.runner.programs import TOP

KEPT = TOP / 'docs/proof/wrong_bodies.tsv'
HEAD_LINE = ('# written by tools/dev/wrong_bodies: mutant, day, what it came to, function, goals or error, digest, '
             'seconds\n')
# The beginnings of lines that have only a comment, by the ending of the file; and of imports.
COMMENTS = {'.rt': '//', '.antt': '--', '.edit': '#'}
IMPORTS = 'use ', 'pub use ', 'ghost use '
# The crate of definitions in an import, and the path of a module there, or of a name in a module.
DEFINITIONS = re.compile(r'(?m)^(?:ghost |pub )?use Rattle\.(\w+)\.specs\.([\w.]*\w)')
# An error about a goal that a proof by hand no longer proves, which the log shortens; and its most letters.
BY_HAND = re.compile(r'\S+: error: `([\w-]+)`:.*')
MOST_LETTERS = 400


class Tried(NamedTuple):
    """The day on which a mutant was tried, the verdict, the digest of what it is about, and the processor seconds of
    the longest check of its crate so far, 0 if they aren't known."""
    day: str
    verdict: Verdict
    digest: str
    seconds: int = 0


@cache
def code_of(file: Path) -> str:
    """The lines of a file without imports, and without lines that have only a comment."""
    lines = (it for it in file.read_text('utf-8').split('\n') if not it.startswith(IMPORTS))
    return '\n'.join(it for it in lines if not it.lstrip().startswith(COMMENTS[file.suffix]))


@cache
def definitions_in(file: Path, crates: Path) -> frozenset[Path]:
    """The modules of definitions that a file imports, without those of the kit, and those of declared types."""
    named = [crates / crate / 'specs' / path.replace('.', '/')
             for crate, path in DEFINITIONS.findall(file.read_text('utf-8'))]
    modules = {it.with_suffix('.antt') for path in named for it in (path, path.parent)}
    return frozenset(filter(Path.is_file, modules))


def definitions(files: Iterable[Path], crates: Path) -> set[Path]:
    """The modules of definitions that these files import, and those that these import."""
    found: set[Path] = set()
    new = {it for file in files for it in definitions_in(file, crates)}
    while new:
        found |= new
        new = {it for file in new for it in definitions_in(file, crates)} - found
    return found


@cache
def digest(edit: Edit) -> str:
    """A digest of a mutant, and of what its verdict is about."""
    folder = Path(edit.crate.folder)
    files = {folder / it for it in re.findall(r'(?m)^file: (.*)$', edit.text)}
    texts = [code_of(it) for it in (edit.file, *sorted(files))]
    texts += sorted(map(code_of, definitions(files, folder.parent)))
    return hashlib.sha256('\0'.join([*texts, version().partition(' ')[2]]).encode()).hexdigest()[:16]


def noted() -> dict[str, Tried]:
    """The rows of the log, by CRATE/NAME."""
    rows = KEPT.read_text('utf-8').splitlines() if KEPT.is_file() else []
    cells = [it.split('\t') for it in rows if it.count('\t') >= 5 and not it.startswith('#')]
    return {name: Tried(day, Verdict(kind, function, why), digest, *map(int, seconds))
            for name, day, kind, function, why, digest, *seconds in cells}


def crate_of(name: str) -> str:
    return name.partition('/')[0]


def seconds() -> dict[str, int]:
    """The processor seconds of a check of each crate's mutants, as far as they are known."""
    return {crate_of(name): it.seconds for name, it in noted().items() if it.seconds}


def changed(edits: Iterable[Edit]) -> list[Edit]:
    """The mutants whose verdict for the present texts isn't known, or is that they weren't refused."""
    kept = noted()
    return [it for it in edits if it.name not in kept or kept[it.name].verdict.kind not in (CONTRACT, *OPEN)
            or kept[it.name].digest != digest(it)]


def shown(why: str) -> str:
    """The goals or the error in one line, without the place of a proof by hand."""
    return ' '.join(BY_HAND.sub(r'\1 (by hand)', why)[:MOST_LETTERS].split())


def note(found: Mapping[Edit, Verdict], edits: Iterable[Edit], needed: Mapping[str, int]) -> None:
    """Notes today's verdicts on mutants, and the processor seconds of a check of each crate. Mutants that aren't among
    all edits are forgotten."""
    today, names = time.strftime('%Y-%m-%d'), {it.name for it in edits}
    kept = {name: it for name, it in noted().items() if name in names}
    kept |= {it.name: Tried(today, verdict, digest(it)) for it, verdict in found.items()}
    rows = ['\t'.join([name, day, kind, function, shown(why), digest,
                       str(max(seconds, needed.get(crate_of(name), 0)))]) + '\n'
            for name, (day, (kind, function, why), digest, seconds) in sorted(kept.items())]
    KEPT.parent.mkdir(exist_ok=True)
    KEPT.write_text(HEAD_LINE + ''.join(rows), 'utf-8')
