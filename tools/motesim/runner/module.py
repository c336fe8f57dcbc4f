"""The WebAssembly modules web/motesim.wasm and web/motecheck.wasm, and what they were made from.

The scripts web/motesim and web/motecheck run them in node, as programs. So the tools can run them instead of compiled
ones.
"""
from __future__ import annotations

import contextlib
import json
from pathlib import Path
from typing import NamedTuple

from motesim.home import WEB

# For each program, the crate from which its module is made.
SOURCES = {'motesim': 'serial_program', 'motecheck': 'serial_check'}


class About(NamedTuple):
    """What a module was made from.

    sources   the digest of the crates' code
    code      the kind of the intermediate code: `proved`, or `compiled` without a proof
    kit       the version of the kit
    binaryen  the version of binaryen
    sha256    the digest of the module
    """
    sources: str
    code: str
    kit: str
    binaryen: str
    sha256: str


def script_of(name: str) -> Path:
    """The script that runs a program's module."""
    return WEB / name


def file_of(name: str) -> Path:
    """The module of a program."""
    return WEB / (name + '.wasm')


def about_of(name: str) -> Path:
    """The file that says what the module of a program was made from."""
    return WEB / (name + '.json')


def read_about(name: str = 'motesim') -> About | None:
    """What the module of a program was made from, if there is a file that says it."""
    with contextlib.suppress(OSError, ValueError, TypeError):
        return About(**json.loads(about_of(name).read_text('utf-8')))
    return None
