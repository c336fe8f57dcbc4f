"""Sessions with the tools, as tables in sessions/: the files that there are, the commands, and what they say and make.

    program = "stub"                    # that of stub.py; "file": the file `motesim`; "none": none; else the built one
    texts.net = '...'                   # {{net}} in a later text, a file, or a command is this text
    files."a.toml" = '...'              # all sessions of the table begin with these files

    [[session]]
    name = "what it shows"
    files."b.toml" = ["net", "old", "new"]     # the text `net` with other words, each of which must be in it
    do = [{ run = "tool WORD ..", status = 2, err = "a part of what it says" }]

A step may have further keys: `out` and `err` are parts of what it writes on its streams, `lacks` are in neither,
`whole` is all of standard output, and `like` is a regular expression; `made` has parts of files, `lacks_in` what they
lack, `like_in` regular expressions, `names` the names in folders, and `absent` files that there aren't; `files` are
written, and `remove` removed, before the command. Spaces and line ends count as one space each. A session of one step
has its keys itself, and `patch` has values that the tools then have under other names: patch."motesim.MODULE.NAME" =
1. Commands that are refused, each with a part of the reason, may be listed at the end of a session: refuses."tool WORD
.." = "..".
"""
from __future__ import annotations

import contextlib
import os
import re
import shlex
import shutil
import subprocess
import tomllib
from collections.abc import Callable, Iterator, Mapping
from pathlib import Path
from typing import Any
from unittest import mock

from here import TOOLS, TOP, call, load_tools
from skips import need_built
from stub import judged, programs_of, write_stub

TABLES = TOOLS / 'tests/sessions'
OF_A_STEP = {'run', 'status', 'out', 'err', 'lacks', 'whole', 'like', 'made', 'lacks_in', 'like_in',
             'names', 'absent', 'files', 'remove'}
OF_A_SESSION = OF_A_STEP | {'name', 'do', 'program', 'refuses', 'patch'}


def squeezed(text: str) -> str:
    return re.sub('[ \n]+', ' ', text).strip(' ')


def listed(value: Any) -> list[str]:
    return [value] if isinstance(value, str) else list(value)


class Table:
    """A table of sessions."""

    def __init__(self, path: Path) -> None:
        read = tomllib.loads(path.read_text('utf-8'))
        self.texts = {'top': str(TOP)}
        for name, text in read.get('texts', {}).items():
            self.texts[name] = self.filled(text)
        self.program: str = read.get('program', 'built')
        self.files: dict[str, Any] = read.get('files', {})
        self.sessions: list[dict[str, Any]] = read['session']
        for session in self.sessions:
            assert session.keys() <= OF_A_SESSION and all(it.keys() <= OF_A_STEP for it in steps(session)), session

    def filled(self, text: str | list[str]) -> str:
        """A text with the texts that it names, or another text with changes."""
        if isinstance(text, list):
            found = self.texts[text[0]]
            for old, new in zip(map(self.filled, text[1::2]), map(self.filled, text[2::2]), strict=True):
                assert old in found, (old, found)
                found = found.replace(old, new)
            text = found
        return re.sub(r'\{\{(\w+)\}\}', lambda it: self.texts[it[1]], text)

    def write(self, room: Path, files: Mapping[str, Any]) -> None:
        for name, text in files.items():
            path = room / name
            path.parent.mkdir(parents=True, exist_ok=True)
            path.write_bytes(self.filled(text).encode('utf-8'))


def steps(session: dict[str, Any]) -> Iterator[dict[str, Any]]:
    yield from session.get('do', [])
    if 'run' in session:
        yield {key: session[key] for key in session.keys() & OF_A_STEP}
    for command, why in session.get('refuses', {}).items():
        yield {'run': command, 'status': 2, 'whole': '', 'err': why}


def play(table: Table, session: dict[str, Any], room: Path) -> None:
    """Goes through a session in a folder."""
    environment = dict(os.environ)
    program = session.get('program', table.program)
    if program == 'stub':
        (room / '.stub').mkdir()
        environment |= programs_of(write_stub(room / '.stub'))
    elif program == 'built':
        need_built()
    table.write(room, table.files)
    table.write(room, session.get('files', {}))
    if program == 'file':
        (room / 'motesim').chmod(0o755)
        environment |= programs_of(room / 'motesim')
    load_tools()
    with contextlib.ExitStack() as patches:
        if program == 'stub':
            patches.enter_context(judged())
        for name, value in session.get('patch', {}).items():
            patches.enter_context(mock.patch(name, value))
        for step in steps(session):
            for name in listed(step.get('remove', [])):
                shutil.rmtree(room / name) if (room / name).is_dir() else (room / name).unlink()
            table.write(room, step.get('files', {}))
            command = table.filled(step['run'])
            tool, *words = shlex.split(command)
            check(table, step, command, call(tool, *words, cwd=room, env=environment), room)


def check(table: Table, step: dict[str, Any], command: str, done: subprocess.CompletedProcess[str], room: Path) -> None:
    said = '%s\n%s%s' % (command, done.stdout, done.stderr)
    assert done.returncode == step.get('status', 0), said
    assert 'Traceback' not in done.stderr, said
    out, err = squeezed(done.stdout), squeezed(done.stderr)
    for key, has in HAS.items():
        for part in listed(step.get(key, [])):
            assert has(squeezed(table.filled(part)), out, err), '%s %r:\n%s' % (key, part, said)
    if 'whole' in step:
        assert [squeezed(it) for it in done.stdout.splitlines()] == [squeezed(it) for it in step['whole'].splitlines()]
    for key in 'made', 'lacks_in':
        for name, parts in step.get(key, {}).items():
            text = squeezed((room / name).read_text('utf-8'))
            for part in map(table.filled, listed(parts)):
                assert (squeezed(part) in text) == (key == 'made'), '%s: %s %r:\n%s' % (name, key, part, text)
    for name, form in step.get('like_in', {}).items():
        assert re.search(form, (room / name).read_text('utf-8')), '%s: %r' % (name, form)
    for folder, names in step.get('names', {}).items():
        assert sorted(os.listdir(room / folder)) == names, said
    for name in listed(step.get('absent', [])):
        assert not (room / name).exists(), name


HAS: dict[str, Callable[[str, str, str], bool]] = {
    'out': lambda part, out, err: part in out,
    'err': lambda part, out, err: part in err,
    'lacks': lambda part, out, err: part not in out and part not in err,
    'like': lambda part, out, err: re.search(part, out + '\n' + err) is not None}
