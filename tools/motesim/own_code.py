"""Functions in users' Python files, `FILE:FUNCTION`: a measure of a sweep calls one, and a file of expectations too.

The sources are read first, because another machine may run them.
"""
from __future__ import annotations

import inspect
import re
import traceback
from collections.abc import Callable, Iterable, Mapping
from pathlib import Path, PurePath
from types import ModuleType
from typing import Any

from motesim.faults import Fault
from motesim.text import known

NAMED = re.compile(r'\s*([^:]+?)\s*:\s*([A-Za-z_]\w*)\s*')


class CodeFault(Fault):
    """A user's function that isn't there, or that has failed."""


def named(words: str) -> tuple[str, str] | None:
    """The file and the function of `FILE:FUNCTION`."""
    found = NAMED.fullmatch(words)
    return (found[1], found[2]) if found else None


def sources_of(files: Iterable[str], folder: Path, read: Callable[[Path], bytes]) -> dict[str, str]:
    """The sources of users' files in a folder, by their names."""
    found = dict[str, str]()
    for name in sorted(files):
        try:
            found[name] = read(folder / name).decode('utf-8')
        except UnicodeDecodeError as fault:
            raise CodeFault('%s is not UTF-8: %s' % (name, fault)) from None
    return found


def function_of(file: str, function: str, sources: Mapping[str, str]) -> Callable[..., object]:
    """A user's function, which raises a `CodeFault` with its line if it fails."""
    if file not in sources:
        raise CodeFault('there is no file %s' % file)
    module = ModuleType(PurePath(file).stem)
    module.__file__ = file
    space = vars(module)
    try:
        exec(compile(sources[file], file, 'exec'), space)
    except Exception as fault:
        raise CodeFault('%s: %s' % (file, _said(fault, file))) from None
    work: Any = space.get(function)
    if not callable(work):
        its = [name for name, it in space.items() if inspect.isfunction(it)]
        raise CodeFault('%s has no function %s: %s' % (file, function, known(function, its) if its else 'it has none'))

    def called(*given: object) -> object:
        try:
            return work(*given)
        except (CodeFault, MemoryError, TimeoutError):
            raise
        except Exception as fault:
            raise CodeFault('%s of %s: %s' % (function, file, _said(fault, file))) from None
    called.__wrapped__ = work  # type: ignore[attr-defined]
    return called


def needed_by(function: Callable[..., object]) -> int:
    """The number of arguments without which a user's function can't be called."""
    try:
        its = list(inspect.signature(function).parameters.values())
    except (TypeError, ValueError):
        return 1
    return sum(it.kind in (it.POSITIONAL_ONLY, it.POSITIONAL_OR_KEYWORD) and it.default is it.empty for it in its)


def _said(fault: Exception, file: str) -> str:
    """The error in a user's file, with its line."""
    lines = [line for frame, line in traceback.walk_tb(fault.__traceback__) if frame.f_code.co_filename == file]
    if isinstance(fault, SyntaxError) and fault.filename == file:
        lines.append(fault.lineno or 0)
    what = fault.msg if isinstance(fault, SyntaxError) else str(fault)
    return '%s%s: %s' % ('line %d: ' % lines[-1] if lines else '', type(fault).__name__, ' '.join(what.split()))
