"""The files of the studio: the only files that it may read and write.

The studio reads scenarios in the folder of the file with which it was started, and the examples. It writes this file,
and new files that the user names in the page. If a file was changed elsewhere after it was read, the studio overwrites
it only if the user agrees.
"""
from __future__ import annotations

import hashlib
import os
import unicodedata
from pathlib import Path
from typing import Any, NamedTuple

from motesim.faults import Fault, in_words
from motesim.files import NotWritten, write_whole
from motesim.home import EXAMPLES
from motesim.report.run import refuse_others
from motesim.scenario.encodings import decoded
from motesim.scenario.kinds import is_for_teachers

LONGEST = 1_048_576
# Endings of TOML files that are not scenarios.
OTHERS = ('.expect.toml', '.plan.toml')
# The characters of a name besides letters and digits of any alphabet; only the first two of them may begin a name.
SIGNS, FIRST_SIGNS = '_(\'’+,.- )', '_(\'’+'
LONGEST_NAME = 200
ALLOWED = ('NAME has letters, digits, spaces and _ ( ) \' + , . - only, at most %d bytes, and begins with none of '
           ') , . - or a space' % LONGEST_NAME)
MARK = '\ufeff'
# The example with whose text a new file begins.
FIRST = 'two_motes.toml'


def is_name(name: str) -> bool:
    """True if a file of this name may be a scenario or its expectations: the name isn't a path, and has no character
    that could be a command."""
    stem = name.removesuffix('.toml')
    # (accents may be separate characters, of the kinds Mn and Mc)
    plain = all(it.isalnum() or it in SIGNS or unicodedata.category(it) in ('Mn', 'Mc') for it in stem)
    return plain and stem != name and stem[:1] != '' and (stem[0].isalnum() or stem[0] in FIRST_SIGNS) and (
        len(stem.removesuffix('.expect').encode()) <= LONGEST_NAME)


class Changed(Fault):
    """A file was changed after it was read."""


class Document(NamedTuple):
    """A text, and the form of its file: a stamp of its bytes (empty without a file), its line ends, its byte order
    mark."""
    where: str
    name: str
    text: str
    stamp: str
    returns: bool = False
    mark: bool = False


def stamp_of(data: bytes | None) -> str:
    return '' if data is None else hashlib.sha256(data).hexdigest()


def bytes_of(text: str, returns: bool, mark: bool) -> bytes:
    """A text in the form of its file."""
    written = text.replace('\n', '\r\n') if returns else text
    return ((MARK if mark else '') + written).encode('utf-8')


def document(where: str, name: str, data: bytes) -> Document:
    """A file's text. If all lines of the file end with CR and LF, the text has only LF."""
    text = decoded(name, data)
    mark, text = text.startswith(MARK), text.removeprefix(MARK)
    returns = '\r\n' in text and text.count('\r\n') == text.count('\n') == text.count('\r')
    return Document(where, name, text.replace('\r\n', '\n') if returns else text, stamp_of(data), returns, mark)


class Desk:
    """The folder and the file with which the studio was started, and the examples."""

    def __init__(self, named: str | Path | None, examples: Path = EXAMPLES):
        self.examples = examples.resolve()
        path = Path(named).resolve() if named else None
        self.folder = path.parent if path else Path.cwd().resolve()
        self.mine = path.name if path else None
        self.written = {self.mine} if path else set()
        if path and path.is_dir():
            raise Fault('%s is a folder; give the studio a scenario, NAME.toml' % named)
        if path and not self.folder.is_dir():
            raise Fault('%s: there is no folder %s' % (named, self.folder))
        if named:
            refuse_others(named)
        if path and not is_name(path.name):
            raise Fault('%s: the studio opens scenarios, NAME.toml: %s' % (named, ALLOWED))

    def folder_of(self, where: str) -> Path:
        if where not in ('folder', 'example'):
            raise Fault('there is no folder %s' % where)
        return self.examples if where == 'example' else self.folder

    def names(self, where: str) -> list[str]:
        """The scenarios of a folder, without those for teachers unless the studio was started with one."""
        try:
            names = os.listdir(self.folder_of(where))
        except OSError:
            return []
        has_all = self.mine is not None and is_for_teachers(self.mine)
        return sorted(name for name in names if is_name(name) and not name.endswith(OTHERS)
                      and (has_all or name in self.written or not is_for_teachers(name)))

    def path(self, where: str, name: str) -> Path:
        """The path of a file that may be read: the file is in the folder itself, and isn't a link to another place."""
        folder = self.folder_of(where)
        path = folder / name
        if not is_name(name):
            raise Fault('%s is not a name of a scenario, NAME.toml: %s' % (name, ALLOWED))
        if path.resolve() != path:
            raise Fault('%s is not a scenario in this folder' % name)
        return path

    def data(self, path: Path) -> bytes | None:
        """The bytes of a file, or None if it doesn't exist."""
        try:
            with open(path, 'rb') as file:
                data = file.read(LONGEST + 1)
        except FileNotFoundError:
            return None
        except OSError as fault:
            raise Fault(in_words(fault)) from None
        if len(data) > LONGEST:
            raise Fault('%s is longer than %d bytes, the limit of a scenario' % (path.name, LONGEST))
        return data

    def read(self, where: str, name: str) -> Document:
        data = self.data(self.path(where, name))
        if data is None:
            if where == 'folder' and name == self.mine:
                return self.read('example', FIRST)._replace(where=where, name=name, stamp='')
            raise Fault('%s does not exist' % name)
        return document(where, name, data)

    def first(self) -> Document:
        """The document with which the page opens: the named file, or the first example of examples/README.md."""
        return self.read('folder', self.mine) if self.mine else self.read('example', 'flooding.toml')

    def expectations(self, where: str, name: str) -> tuple[str, str] | None:
        """The name and the text of the expectations next to a scenario, or None."""
        name = name.removesuffix('.toml') + '.expect.toml'
        data = self.data(self.path(where, name))
        return None if data is None else (name, document(where, name, data).text)

    def may_save(self, document: dict[str, Any]) -> bool:
        return document['where'] == 'folder' and document['name'] in self.written

    def save(self, document: dict[str, Any], over: bool = False) -> str:
        """Writes a document into its file, and returns the new stamp."""
        name = document['name']
        if not self.may_save(document):
            raise Fault('the studio writes only the file that it was started with, and new ones that you name')
        path = self.path('folder', name)
        if not over and stamp_of(self.data(path)) != document['stamp']:
            raise Changed('%s was changed elsewhere since it was read here' % name)
        data = bytes_of(document['text'], document['returns'], document['mark'])
        self.write(path, data)
        return stamp_of(data)

    def save_expectations(self, document: dict[str, Any], text: str, stamp: str) -> None:
        """Writes the expectations next to a document that may be saved."""
        if not self.may_save(document):
            raise Fault('the studio writes expectations only next to its own file: save this scenario first')
        path = self.path('folder', document['name'].removesuffix('.toml') + '.expect.toml')
        if stamp_of(self.data(path)) != stamp:
            raise Fault('%s was changed elsewhere since it was read here; its expectations are shown after the next '
                        'run' % path.name)
        self.write(path, text.encode('utf-8'))

    def save_new(self, document: dict[str, Any], name: str) -> str:
        """Writes a document into a new file of the folder. Afterwards the document may be saved there."""
        name = name if name.endswith('.toml') else name + '.toml'
        path = self.path('folder', name)
        if name.endswith(OTHERS):
            raise Fault('%s is a name of %s, and not of a scenario' % (
                name, 'a plan' if name.endswith('.plan.toml') else 'expectations'))
        if path.exists() and name not in self.written:
            raise Fault('%s exists already; choose another name' % name)
        self.written.add(name)
        if path.exists():
            return self.save({**document, 'where': 'folder', 'name': name})
        data = bytes_of(document['text'], document['returns'], document['mark'])
        self.write(path, data)
        return stamp_of(data)

    def write(self, path: Path, data: bytes) -> None:
        """Writes a file completely or not at all."""
        if len(data) > LONGEST:
            raise Fault('the text is longer than %d bytes, the limit of a scenario' % LONGEST)
        if path.exists() and not os.access(path, os.W_OK):
            raise Fault('%s is read-only' % path.name)
        try:
            write_whole(path, [data])
        except NotWritten as fault:
            raise Fault('%s was not written: %s' % (path.name, fault.why)) from None
