"""The places of a tool's output."""
from __future__ import annotations

import contextlib
import io
import sys
from collections.abc import Iterable, Iterator
from pathlib import Path

from motesim.files import refuse_inputs, write_whole
from motesim.home import TOP

SHIPPED = [TOP / name for name in ('bench', 'crates', 'docs', 'examples', 'tests', 'tools')]


def is_shipped(path: Path) -> bool:
    """Returns whether a file would be among the files of the repository."""
    return any(folder in path.parents for folder in SHIPPED)


def beside(source: str, name: str) -> Path:
    """The path for a file NAME made from a source: next to the source, and never among the files of the repository.

    Files made from an example, or from standard input, are in the current folder; if that is the repository, or one of
    its folders, in the repository's folder `out`, which git ignores.
    """
    here = Path().resolve()
    if source != '-' and not is_shipped(Path(source).resolve()):
        return Path(source).parent / name
    if here != TOP and not is_shipped(here / name):
        return Path(name)
    out = TOP / 'out'
    out.mkdir(exist_ok=True)
    return out.relative_to(here) / name if here == TOP else out / name


def made_beside(source: str, name: str) -> Path:
    """The path for a file NAME that a tool makes from a source, if the user names none. If there is an earlier file, a
    line says that it is replaced."""
    path = beside(source, name)
    if path.is_file():
        print('%s is replaced' % path, file=sys.stderr)
    return path


@contextlib.contextmanager
def output_to(name: str | None, inputs: Iterable[str | Path | None]) -> Iterator[None]:
    """Standard output or, with the name of a file, this file, which is written whole at the end; it is none of the
    inputs of the command."""
    if name in (None, '-'):
        yield
        return
    refuse_inputs(str(name), inputs, 'another option')
    text = io.StringIO(newline='')
    with contextlib.redirect_stdout(text):
        yield
    write_whole(str(name), [text.getvalue().encode()])
    print(name)
