"""The build backend of pip (PEP 517): makes the wheel of the tools, with all that they need besides Python and node.

The wheel has the package `motesim` and, in its folder `share`, the parts of this tree that the tools read: the
WebAssembly modules, the examples, the pages for users and the simulator in C. Solutions for teachers are left out.
"""
from __future__ import annotations

import base64
import hashlib
import re
import tomllib
import zipfile
from collections.abc import Iterator
from pathlib import Path
from typing import Any

from motesim.scenario.kinds import is_for_teachers
from motesim.version import VERSION

TOP = Path(__file__).resolve().parents[2]
SHARED = ('LICENSE', 'docs/use', 'examples', 'tools/contiki_host', 'web')
LEFT_OUT = re.compile(r'\.|__pycache__$|.*~$')
# (the same tree yields the same wheel)
TIME = (2020, 1, 1, 0, 0, 0)


def files_in(part: str) -> Iterator[Path]:
    """A file of the tree, or the files of a folder, without those of editors."""
    for path in [TOP / part, *sorted((TOP / part).rglob('*'))]:
        if path.is_file() and not any(map(LEFT_OUT.match, path.relative_to(TOP).parts)):
            yield path


def contents() -> Iterator[tuple[str, Path]]:
    """The files of the wheel with their names in it."""
    for path in files_in('tools/motesim'):
        yield path.relative_to(TOP / 'tools').as_posix(), path
    for path in (it for part in SHARED for it in files_in(part)):
        if path.parts[len(TOP.parts)] != 'examples' or not any(map(is_for_teachers, path.parts[len(TOP.parts):])):
            yield 'motesim/share/%s' % path.relative_to(TOP).as_posix(), path


def about() -> dict[str, bytes]:
    """The files of the wheel that describe it."""
    project: dict[str, Any] = tomllib.loads((TOP / 'pyproject.toml').read_text('utf-8'))['project']
    scripts = ''.join('%s = %s\n' % it for it in project['scripts'].items())
    return {
        'METADATA': ('Metadata-Version: 2.1\nName: %s\nVersion: %s\nSummary: %s\nRequires-Python: %s\n'
                     'License: BSD-3-Clause\nDescription-Content-Type: text/markdown\n\n%s' % (
                         project['name'], VERSION, project['description'], project['requires-python'],
                         (TOP / 'README.md').read_text('utf-8'))).encode(),
        'WHEEL': b'Wheel-Version: 1.0\nGenerator: motesim\nRoot-Is-Purelib: true\nTag: py3-none-any\n',
        'entry_points.txt': ('[console_scripts]\n%s' % scripts).encode(),
        'LICENSE': (TOP / 'LICENSE').read_bytes()}


def row_of(name: str, data: bytes) -> str:
    digest = base64.urlsafe_b64encode(hashlib.sha256(data).digest()).rstrip(b'=').decode()
    return '%s,sha256=%s,%d\n' % (name, digest, len(data))


def build_wheel(folder: str, settings: object = None, metadata: object = None) -> str:
    """Writes the wheel into a folder, and returns its name; pip calls this."""
    return write_wheel(folder, [(at, path.read_bytes(), path.stat().st_mode & 0o777) for at, path in contents()])


def build_editable(folder: str, settings: object = None, metadata: object = None) -> str:
    """The same for `pip install -e`: the wheel has only the place of the package in this tree."""
    return write_wheel(folder, [('motesim.pth', ('%s\n' % (TOP / 'tools')).encode(), 0o644)])


def write_wheel(folder: str, files: list[tuple[str, bytes, int]]) -> str:
    """Writes a wheel with these files: for each, its name, its bytes and its mode."""
    name, its = 'motesim-%s-py3-none-any.whl' % VERSION, 'motesim-%s.dist-info/' % VERSION
    files = [*files, *((its + at, data, 0o644) for at, data in about().items())]
    rows = ''.join(row_of(at, data) for at, data, _ in files) + its + 'RECORD,,\n'
    with zipfile.ZipFile(Path(folder) / name, 'w', zipfile.ZIP_DEFLATED) as wheel:
        for at, data, mode in [*files, (its + 'RECORD', rows.encode(), 0o644)]:
            entry = zipfile.ZipInfo(at, TIME)
            entry.external_attr, entry.compress_type = (0o100000 | mode) << 16, zipfile.ZIP_DEFLATED
            wheel.writestr(entry, data)
    return name
