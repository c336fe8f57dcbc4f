"""The folder of what the tools need besides their modules, such as the examples: the top of a clone, or the folder that
an installation has instead."""
from __future__ import annotations

from pathlib import Path

PACKAGE = Path(__file__).resolve().parent
SHARED = PACKAGE / 'share'
TOP = SHARED if SHARED.is_dir() else PACKAGE.parents[1]
EXAMPLES, WEB = TOP / 'examples', TOP / 'web'
VERBS = sorted(it.stem for it in (PACKAGE / 'commands').glob('[a-z]*.py'))
