"""The lists of definitions of docs/proof/HEADLINE.md, which tools/dev/pages writes.

The page lists the files on which the theorem rests: the contract of `simulate`
(crates/simulation/specs/Simulation.antt), the files of specs/ that this contract imports, the files that these import,
and so on. A second list has the further files for the answers of `motecheck`. A list is in order from the top down: the
crates from the last of crates.txt to the first, and within a crate a file before the files that it imports. It has the
first sentence of each file's first comment.
"""
from __future__ import annotations

import re
import textwrap
from collections import defaultdict
from collections.abc import Iterable, Iterator
from graphlib import TopologicalSorter
from itertools import chain
from pathlib import Path

from motesim.faults import Fault

# The files with the contracts of `simulate`, and of `check` and `check_with_faults`.
HEADLINE = 'crates/simulation/specs/Simulation.antt',
ANSWERS = 'crates/claim_check/specs/Check.antt', 'crates/claim_check/specs/Survey.antt'
CONSTANTS = 'TheConstants'
# An import, with its name if the name has a known form.
IMPORT = re.compile(r'^(?:pub )?use (?:([\w.]+?)(?:\.\{| as |\.?$))?', re.M)


def crates_of(top: Path) -> list[str]:
    """The crates of crates.txt, the lowest first."""
    return re.findall(r'(?m)^\s*(\w+)', (top / 'crates.txt').read_text('utf-8'))


def crate_of(top: Path, path: Path) -> str:
    """The crate of a file."""
    return path.relative_to(top / 'crates').parts[0]


def about(path: Path) -> str:
    """The first sentence of a file's first comment."""
    comment = re.match(r'(?:--.*\n)+', path.read_text('utf-8'))
    if not comment:
        raise Fault('%s: the file has to begin with a comment; the lists show its first sentence' % path)
    text = ' '.join(it[2:].strip() for it in comment[0].splitlines())
    return re.split(r'(?<=[.])\s+(?=[A-Z`])', text, maxsplit=1)[0]


def item(text: str) -> str:
    """One item of a list, in lines of at most 112 characters."""
    return textwrap.fill('- ' + text, 112, subsequent_indent='  ', break_long_words=False, break_on_hyphens=False)


# The definitions of the headline.

def modules_of(top: Path) -> dict[str, Path]:
    """The files of specs/ and src/ of all crates. The key of a file is the name by which files of specs/ import it."""
    found = {}
    for path in [*top.glob('crates/*/specs/**/*.antt'), *top.glob('crates/*/src/**/*.rt')]:
        crate, folder, *words = path.relative_to(top / 'crates').with_suffix('').parts
        words = [it for it in words if it != 'mod']
        found['.'.join(['Rattle', crate, 'specs', *(['declared'] if folder == 'src' else []), *words])] = path
    return found


class Rests:
    """The files on which a contract rests, each with the files that it imports. Also the libraries that these files
    import, and for each source the types that they name."""

    def __init__(self, top: Path, contract: tuple[str, ...] = HEADLINE):
        self.crates, self.modules = crates_of(top), modules_of(top)
        self.files: dict[Path, list[Path]] = {}
        self.libraries: set[str] = set()
        self.types: dict[Path, set[str]] = defaultdict(set)
        left = [top / it for it in contract]
        while left:
            path = left.pop()
            if path not in self.files:
                self.files[path] = []
                for name in IMPORT.findall(path.read_text('utf-8')):
                    self.note_import(path, name)
                left += self.files[path]

    def note_import(self, path: Path, name: str) -> None:
        """Notes an import of a file: another file of specs/, a type of a source, or a library."""
        if not name:
            raise Fault('%s: an import has a form that this tool doesn\'t know' % path)
        library, *words = name.split('.')
        if library != 'Rattle' or words[0] not in self.crates:
            self.libraries.add(words[0] if library == 'Rattle' else library)
            return
        # (the last words may name parts of a file)
        prefixes = ['.'.join(['Rattle', *words[:end]]) for end in range(len(words), 0, -1)]
        module = next((it for it in prefixes if it in self.modules), None)
        if module is None:
            raise Fault('%s: there is no file for the import %s' % (path, name))
        file, part = self.modules[module], name[len(module) + 1:].partition('.')[0]
        if file.suffix == '.rt':
            self.types[file].add(part)
        elif file not in self.files[path]:
            self.files[path].append(file)


def from_the_top(files: dict[Path, list[Path]]) -> list[Path]:
    """The files of one crate, each before the files that it imports."""
    importers = {path: [it for it in sorted(files) if path in files[it]] for path in sorted(files)}
    return [*TopologicalSorter(importers).static_order()]


def counted(number: int, name: str) -> str:
    return '1 ' + name if number == 1 else '{:,} {}s'.format(number, name)


def lines_of(*paths: Path) -> int:
    return sum(it.read_bytes().count(b'\n') for it in paths)


def by_crate(top: Path, rests: Rests, files: Iterable[Path]) -> Iterator[str]:
    """The rows of some of the files, crate by crate."""
    of_crate = defaultdict[str, dict[Path, list[Path]]](dict)
    for path in files:
        of_crate[crate_of(top, path)][path] = rests.files[path]
    yield from ['', 'The list has %s with %s, in %s.' % (
        counted(sum(map(len, of_crate.values())), 'file'), counted(lines_of(*chain(*of_crate.values())), 'line'),
        counted(len(of_crate), 'crate'))]
    for crate in sorted(of_crate, key=rests.crates[::-1].index):
        folder, order = 'crates/%s/specs' % crate, from_the_top(of_crate[crate])
        yield from ['', '**[%s](../../%s)**: %s, %s' % (folder, folder, counted(len(order), 'file'),
                                                        counted(lines_of(*order), 'line')), '']
        yield from (item('`%s` (%d): %s' % (it.relative_to(top / folder).as_posix(), lines_of(it), about(it)))
                    for it in order)


def headline(top: Path) -> str:
    """The list of the definitions on which the headline rests."""
    rests = Rests(top)
    rows = [*by_crate(top, rests, rests.files)]
    rows.insert(2, 'All `specs/` together have %d files.' % len(list(top.glob('crates/*/specs/**/*.antt'))))
    crates = rests.crates[::-1]
    rows += ['', '**Types of the source files** that these definitions use: %s, from %s' % (
        counted(sum(len(names - {CONSTANTS}) for names in rests.types.values()), 'type'),
        counted(len(rests.types), 'file')), '']
    for path in sorted(rests.types, key=lambda path: (crates.index(crate_of(top, path)), path)):
        names = ['its constants' if it == CONSTANTS else '`%s`' % it for it in sorted(rests.types[path])]
        rows.append(item('`%s`: %s' % (path.relative_to(top / 'crates').as_posix(), ', '.join(names))))
    libraries = ', '.join('`%s`' % it for it in sorted(rests.libraries)) or 'none'
    return '\n'.join([*rows, '', '**Libraries** of the kit that these files import: %s.' % libraries, '', ''])


def further(top: Path) -> str:
    """The list of the definitions on which the answers of `motecheck` rest, without those of the headline."""
    rests, first = Rests(top, ANSWERS), Rests(top).files
    return '\n'.join([*by_crate(top, rests, (it for it in rests.files if it not in first)), '', ''])
