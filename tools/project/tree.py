"""The commit of this tree, and other facts from git."""
from __future__ import annotations

import os
import subprocess
from pathlib import Path

from motesim.runner.programs import TOP


def git(top: Path, *words: str) -> str:
    """The output of git for a tree; an empty text if the tree isn't a clone, or git isn't installed."""
    try:
        return os.fsdecode(subprocess.run(['git', '-C', str(top), *words], capture_output=True).stdout)
    except FileNotFoundError:
        return ''


def commit() -> str:
    """The commit of this tree."""
    return git(TOP, 'rev-parse', 'HEAD').strip()
