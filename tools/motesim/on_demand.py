"""Packages whose modules are loaded once one of their names is used, so that scripts and commands start quickly."""
from __future__ import annotations

import importlib
from collections.abc import Callable, Mapping, Sequence


def on_demand(package: str, names: Mapping[str, Sequence[str]]) -> Callable[[str], object]:
    """The `__getattr__` of a package that has these names of each of these modules."""
    homes = {name: module for module, its in names.items() for name in its}

    def found(name: str) -> object:
        if name not in homes:
            raise AttributeError('module %r has no attribute %r' % (package, name))
        return getattr(importlib.import_module('%s.%s' % (package, homes[name])), name)
    return found
