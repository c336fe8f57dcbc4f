"""Packages beyond Python's standard library. Debian's are for its own interpreter, which may not be the `python3` on
the path: a tool that needs one then starts again with Debian's interpreter."""
from __future__ import annotations

import importlib
import importlib.util
import os
import sys
from typing import Any

from motesim.faults import Fault

# Debian's interpreter.
SYSTEM = '/usr/bin/python3'
HANDED_ON = 'MOTESIM_TOOLS_HANDED_ON'
# For each module, the package of Debian that has it.
DEBIAN = {'matplotlib': 'python3-matplotlib', 'distributed': 'python3-distributed', 'pandas': 'python3-pandas'}


def has(module: str, interpreter: str = SYSTEM) -> bool:
    """Returns whether an interpreter is new enough for the tools and has a module."""
    # (the help of a command doesn't need this module)
    import subprocess
    asked = 'import sys, importlib.util as u; sys.exit(sys.version_info < (3, 11) or not u.find_spec(%r))' % module
    try:
        return subprocess.run([interpreter, '-c', asked], capture_output=True, timeout=60).returncode == 0
    except (OSError, subprocess.TimeoutExpired):
        return False


def is_here(module: str) -> bool:
    return importlib.util.find_spec(module.split('.')[0]) is not None


def load(module: str) -> Any:
    """The module. Raises a fault that names Debian's package if this interpreter doesn't have it."""
    package = module.split('.')[0]
    if not is_here(package):
        raise Fault('%s is not installed: on Debian `apt-get install %s` installs it, for %s' % (
            package, DEBIAN[package], SYSTEM))
    return importlib.import_module(module)


def need(module: str) -> None:
    """Goes on only with an interpreter that has a module: this one, or Debian's, which then runs the same command."""
    if not is_here(module) and not os.environ.get(HANDED_ON) and has(module):
        sys.stdout.flush()
        os.execve(SYSTEM, [SYSTEM, '-B', *sys.argv], {**os.environ, HANDED_ON: '1'})
    load(module)
