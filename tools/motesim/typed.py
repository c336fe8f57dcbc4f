"""The names of the commands as they are typed: tools/NAME in a clone, and `motesim NAME` of an installation."""
from __future__ import annotations

import re
import sys
from pathlib import Path

from motesim.home import TOP, VERBS

# The name under which the command `motesim` calls one of its verbs.
ALL_IN_ONE = 'motesim '
IN_CLONE = re.compile(r'\btools/(?=(?:%s)\b)|(?<!\w)\./(?=run\b)' % '|'.join(VERBS))


def name_of_command() -> str:
    """The name with which this command was called."""
    if sys.argv[0].startswith(ALL_IN_ONE):
        return sys.argv[0]
    path = Path(sys.argv[0]).resolve()
    return str(path.relative_to(TOP)) if TOP in path.parents else path.name


def as_typed(text: str) -> str:
    """A text of a tool, with the names of commands as the user of this one types them."""
    return IN_CLONE.sub(ALL_IN_ONE, text) if sys.argv[0].startswith(ALL_IN_ONE) else text
