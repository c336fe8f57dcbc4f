"""Joins the modules of a page into one script, because browsers refuse modules of a page that is opened from a file.

    bundle(Path('page/open.js'))

Each module becomes a function that returns its exports. The function is called once, after the modules that it
imports. So other modules can't see the names of a module, as in a browser that loads them. A module may use these
forms, each at the beginning of a line:

    import {name, other as mine} from './file.js';
    export const NAME = ..      export const [NAME, NAME] = ..
    export function name ..     export async function name ..     export class Name ..

Modules must not import one another in a circle, and must not export a `let`, because importers would keep its first
value.
"""
from __future__ import annotations

import re
from pathlib import Path

IMPORT = re.compile(r"^import\s*\{([^}]*)\}\s*from\s*'([^']+)';\n", re.M)
EXPORT = re.compile(r'^export (?=(?:const|function|async function|class) )', re.M)
NAME = re.compile(r'^export (?:const|function|async function|class) (?:\[([^\]]*)\]|([A-Za-z_$][\w$]*))', re.M)
OTHER = re.compile(r'^(?:import|export)\b.*', re.M)


class BundleFault(Exception):
    """Modules that can't be joined."""


def imports_of(text: str) -> list[tuple[list[tuple[str, str]], str]]:
    """The imports of a module: pairs of a name and its new name, with the file from which they come."""
    found = []
    for names, file in IMPORT.findall(text):
        pairs = [re.split(r'\s+as\s+', name.strip()) for name in names.split(',') if name.strip()]
        found.append(([(pair[0], pair[-1]) for pair in pairs], file))
    return found


def exports_of(text: str) -> list[str]:
    """The names that a module exports."""
    names = [several or one for several, one in NAME.findall(text)]
    return [name.strip() for it in names for name in it.split(',') if name.strip()]


def modules_of(entry: Path) -> dict[Path, str]:
    """A module and all modules that it imports, each after its imports, with their texts."""
    found: dict[Path, str] = {}
    going: list[Path] = []

    def add(path: Path) -> None:
        if path in found:
            return
        if path in going:
            circle = ', '.join(it.name for it in going[going.index(path):])
            raise BundleFault('modules import one another: %s' % circle)
        try:
            text = path.read_text('utf-8')
        except FileNotFoundError:
            importer = going[-1].name if going else 'the page'
            raise BundleFault('%s imports %s, which is not there' % (importer, path)) from None
        going.append(path)
        for _, file in imports_of(text):
            add((path.parent / file).resolve())
        going.pop()
        found[path] = text

    add(entry.resolve())
    return found


def bundle(entry: Path) -> str:
    """One script that does the same as the module in a browser."""
    modules = modules_of(entry)
    exports = {path: exports_of(text) for path, text in modules.items()}
    parts = [_function(path, text, list(modules), exports) for path, text in modules.items()]
    return "(() => {\n'use strict';\n%s})();" % ''.join(parts)


def _function(path: Path, text: str, paths: list[Path], exports: dict[Path, list[str]]) -> str:
    """A module as a function that is called at once. The n-th module's exports are in `module_n`."""
    heads = []
    for names, file in imports_of(text):
        source = (path.parent / file).resolve()
        for name, _ in names:
            if name not in exports[source]:
                raise BundleFault('%s imports %s, which %s does not export' % (path.name, name, source.name))
        taken = ', '.join(name if name == mine else '%s: %s' % (name, mine) for name, mine in names)
        heads.append('const {%s} = module_%d;\n' % (taken, paths.index(source)))
    body = EXPORT.sub('', IMPORT.sub('', text))
    other = OTHER.search(body)
    if other:
        raise BundleFault('%s has a form that no page may use: %s' % (path.name, other[0]))
    return '// %s\nconst module_%d = (() => {\n%s%s\nreturn {%s};\n})();\n' % (
        path.name, paths.index(path), ''.join(heads), body.strip('\n'), ', '.join(exports[path]))
