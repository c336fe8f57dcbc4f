"""The mutants of a crate: its edits, and which of them one check can judge."""
from __future__ import annotations

import os
import re
from collections import Counter
from collections.abc import Mapping, Sequence
from dataclasses import dataclass, field
from pathlib import Path

from project.kit import Crate, edited

FOLDERS = ('must-fail', 'gate-bodies', 'wrong-bodies')
# The most mutants that one check judges.
MOST = 30
TWIN = re.compile(r'(?m)^new: .*\ntwin: ')
IMPL = re.compile(r'impl(?:<.*?>)? (?:(?:\w+::)*(\w+) for )?(\w+)(?:<.*>)? \{')
HEAD = re.compile(r'( *)(?:pub(?:\([\w ]+\))? |const |unsafe |extern "C" )*fn (\w+)')


@dataclass(frozen=True, eq=False)
class Edit:
    """A mutant: its crate and its file; the function that has to be refused, by the end of its path, None if any may
    be; whether a check may judge it together with others; the reason if it can't be applied; the file's text; and the
    lines that its harmless twin changes, in each file."""
    crate: Crate
    file: Path
    function: str | None
    may_share: bool
    trouble: str | None
    text: str = ''
    of_twin: Mapping[str, range] = field(default_factory=dict)

    @property
    def name(self) -> str:
        """Its name CRATE/NAME."""
        return '%s/%s' % (self.crate.name, self.file.stem)

    @property
    def twin(self) -> str | None:
        """The text of its harmless twin, if it has one: each line `twin:` stands for the line `new:` before it."""
        text = TWIN.sub('new: ', self.text)
        return text if text != self.text else None

    def fits(self, group: Sequence[Edit], *, twins: bool = False) -> bool:
        """Returns whether one check can judge it with these: mutants of other functions of its crate, or harmless
        twins that change other lines."""
        def is_apart(it: Edit) -> bool:
            return it.function != self.function or twins and not any(
                {*lines} & {*it.of_twin.get(path, ())} for path, lines in self.of_twin.items())

        return self.may_share and len(group) < MOST and all(
            it.may_share and it.crate is self.crate and is_apart(it)
            for it in group) and bool(applied([*group, self], twins))


def applied(edits: Sequence[Edit], twins: bool) -> dict[str, str]:
    """The texts of a crate's files with all these edits, or with their harmless twins; none if they don't fit."""
    text = '\n'.join(twins and it.twin or it.text for it in edits)
    return edited(text, edits[0].crate.folder)[0]


def body_of(lines: Sequence[str], at: int, indent: str) -> range:
    """The lines of a function's body, if the function's head begins at this line, in the layout of `rt fmt`."""
    opening = next((it for it in range(at, len(lines)) if lines[it].endswith('{') and lines[it].startswith(indent)
                    and not lines[it].startswith(indent + ' ')), len(lines))
    return range(opening + 1, next((it for it in range(opening, len(lines)) if lines[it] == indent + '}'), opening))


def path_of(lines: Sequence[str], at: int, head: re.Match[str], file: Path) -> str:
    """TYPE::NAME, TYPETRAIT::NAME or MODULES::NAME of the function whose head is at this line, or NAME in a trait, in
    an impl of a trait with parameters, or in the root."""
    if head[1]:
        opening = next((it for it in reversed(lines[:at]) if it and not it.startswith(' ')), '')
        found = IMPL.match(opening)
        return '%s%s::%s' % (found[2], found[1] or '', head[2]) if found else head[2]
    return head[2] if file.stem in ('lib', 'main') else '::'.join([*file.with_suffix('').parts[1:], head[2]])


def lines_changed(old: str, new: str) -> range:
    """The lines of a text from the first to the last difference of another text."""
    first = os.path.commonprefix([old, new]).count('\n')
    last = max(first, old.count('\n') - os.path.commonprefix([old[::-1], new[::-1]]).count('\n'))
    return range(first, last + 1)


def function_around(old: str, new: str, file: Path) -> str | None:
    """The function whose body contains all differences of two texts of a file."""
    lines, changed = old.split('\n'), lines_changed(old, new)
    for at in range(changed[0] - 1, -1, -1):
        head = HEAD.match(lines[at])
        body = body_of(lines, at, head[1]) if head else []
        if head and changed[0] in body and changed[-1] in body:
            return path_of(lines, at, head, file)
    return None


def read(file: Path, crate: Crate, functions: Counter[str], modules: set[str]) -> Edit:
    """Reads the edit of a mutant. A line `refused: FUNCTION` names the function if more than its body changes. A check
    may judge it with others if it changes only one body, and the path of the function is known, or no other function
    or module has its name (a check of functions by name would also check those)."""
    text = file.read_text('utf-8')
    texts, trouble = edited(text, crate.folder)
    of_twin, twins_trouble = edited(TWIN.sub('new: ', text), crate.folder)
    old = {path: Path(crate.folder, path).read_text('utf-8') for path in texts}
    around = [function_around(old[path], new, Path(path)) for path, new in texts.items()]
    named = re.findall(r'(?m)^refused: (?:%s::)?([\w:]+)$' % crate.name, text)
    function = around[0] if len(around) == 1 else None
    in_module = function is None or any(Path(path).stem == function for path in texts)
    is_alone = function is not None and functions[function] == 1 and (in_module or function not in modules)
    may_share = function is not None and ('::' in function or is_alone)
    return Edit(crate, file, function or (named[0] if named else None), may_share, trouble or twins_trouble, text,
                {path: lines_changed(old[path], new) for path, new in of_twin.items() if path in old})


def edits_of(crate: Crate) -> list[Edit]:
    """The mutants of a crate."""
    folder = Path(crate.folder)
    sources = [*(folder / 'src').rglob('*.rt')]
    lines = [line for file in sources for line in file.read_text('utf-8').split('\n')]
    functions, modules = Counter(head[2] for head in map(HEAD.match, lines) if head), {it.stem for it in sources}
    return [read(file, crate, functions, modules)
            for part in FOLDERS for file in sorted((folder / part).glob('*.edit'))]


def groups(edits: Sequence[Edit], *, twins: bool = False) -> list[list[Edit]]:
    """Lists of mutants, or of harmless twins, that one check can judge, without those that can't be applied."""
    found: list[list[Edit]] = []
    for edit in edits:
        if not edit.trouble:
            group = next((it for it in found if edit.fits(it, twins=twins)), None)
            if group is None:
                found.append([edit])
            else:
                group.append(edit)
    return found
