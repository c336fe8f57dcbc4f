"""All tools in one command, for an installation: motesim VERB [ARGUMENTS], or motesim FILE, which runs a scenario."""
from __future__ import annotations

import sys
from collections.abc import Sequence
from importlib import import_module
from pathlib import Path
from typing import NoReturn

from motesim.command import finish, version_line
from motesim.faults import Fault
from motesim.home import EXAMPLES, TOP, VERBS
from motesim.text import nearest
from motesim.typed import ALL_IN_ONE

HELP = """usage: motesim FILE
       motesim VERB [ARGUMENTS]

Simulates a network of wireless sensor nodes: `motesim FILE` runs a scenario, and writes its report. The other verbs are
the tools of motesim; `motesim VERB --help` has their arguments.

%s

The examples are in %s, and the pages in %s."""


def purpose_of(verb: str) -> str:
    """The first sentence of the help of a verb."""
    return (import_module('motesim.commands.' + verb).__doc__ or '').split('\n')[0].rstrip('.')


def show_help() -> int:
    width = max(map(len, VERBS))
    print(HELP % ('\n'.join('  %-*s  %s' % (width, it, purpose_of(it)) for it in VERBS), EXAMPLES, TOP / 'docs/use'))
    return 0


def verb_of(word: str) -> str:
    """The verb that a first word means: itself, or `run` if it is an option or the name of a file."""
    near = None if word in VERBS or word.startswith('-') or Path(word).exists() else nearest(word, VERBS)
    if near:
        raise Fault('there is no command and no file %s; did you mean %s?' % (word, near))
    return word if word in VERBS else 'run'


def called(words: Sequence[str]) -> int:
    """Calls a verb, which ends this process."""
    verb = verb_of(words[0])
    sys.argv = [ALL_IN_ONE + verb, *words[verb == words[0]:]]
    import_module('motesim.commands.' + verb).main()
    raise AssertionError(verb)


def main() -> NoReturn:
    words = sys.argv[1:]
    if words in ([], ['--help'], ['-h']):
        finish('motesim', show_help, version_line)
    finish('motesim', lambda: called(words), version_line)


if __name__ == '__main__':
    main()
