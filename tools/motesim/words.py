"""The parts of a command line that all tools share."""
from __future__ import annotations

import argparse
import os
import re
import sys
from collections.abc import Sequence
from contextlib import suppress
from typing import Any, NoReturn

from motesim.command import version_line
from motesim.faults import FAILED, Fault
from motesim.text import nearest
from motesim.typed import name_of_command


# The options that may name a file.
TABLES = '--csv', '--json'
# Options that have got other names.
RENAMED = {'bytes': 'report', 'faults': 'links', 'repeat': 'param', 'set': 'param', 'vary': 'param', 'where': 'param'}


class Version(argparse.Action):
    """Prints the version, and exits."""

    def __call__(self, parser: argparse.ArgumentParser, *_: Any) -> None:
        print(version_line())
        parser.exit()


class Once(argparse.Action):
    """Stores the value of an option that must not be given twice."""

    def __call__(self, parser: argparse.ArgumentParser, namespace: argparse.Namespace, values: Any,
                 option: str | None = None) -> None:
        given = namespace.__dict__.setdefault('given_once', set())
        if option and self.dest in given:
            parser.error('%s is given twice: give it only once' % option)
        given.add(self.dest)
        setattr(namespace, self.dest, values)


class Reader(argparse.ArgumentParser):
    """A parser that names an unknown option alone, with the known option that was most likely meant."""

    def parse_args(self, *given: Any, **named: Any) -> Any:
        return self._without(*self.parse_known_args(*given, **named))

    def parse_intermixed_args(self, *given: Any) -> Any:
        return self._without(*self.parse_known_intermixed_args(*given))

    def _without(self, found: argparse.Namespace, rest: Sequence[str]) -> argparse.Namespace:
        if rest:
            self.refuse(rest)
        return found

    def refuse(self, rest: Sequence[str]) -> NoReturn:
        """Refuses arguments that aren't known: an option, if one is among them, or else all of them."""
        option = next((it.partition('=')[0] for it in rest if it.startswith('-')), '')
        known = [it[2:] for it in self._option_string_actions if it.startswith('--')]
        name = option.lstrip('-')
        near = RENAMED[name] if RENAMED.get(name) in known else nearest(name, known)
        meant = '; did you mean --%s?' % near if near else ''
        self.error('unrecognized arguments: %s%s' % (option or ' '.join(rest), meant))


class Words(Reader):
    """A parser that reports an error in one line, without all options; and its help begins with one line of usage,
    because it lists the options below."""

    def add_argument(self, *names: Any, **more: Any) -> argparse.Action:
        made = super().add_argument(*names, **more)
        if not made.option_strings:
            self.usage = '%s %s' % (self.usage or self.prog, '[%s]' % made.metavar if made.nargs else made.metavar)
        return made

    def format_help(self) -> str:
        self.usage = (self.usage or self.prog).removesuffix(' [options]') + ' [options]'
        return super().format_help()

    def parse_known_args(self, args: Any = None, namespace: Any = None) -> Any:
        found, rest = super().parse_known_args(named_files(sys.argv[1:] if args is None else args), namespace)
        for action in self._actions:
            value = getattr(found, action.dest, None)
            if '-o' in action.option_strings and '-' in map(str, value if isinstance(value, list) else [value]):
                self.error('-o needs the name of a file or a folder, not -')
        return found, rest

    def error(self, message: str) -> NoReturn:
        self.exit(FAILED, '%s: %s (--help lists the options)\n' % (re.split('[ /]', self.prog)[-1], message))


def named_files(words: Sequence[str]) -> list[str]:
    """The words of a command line in which `--csv` and `--json` name standard output, unless the name of a file with
    this ending follows."""
    return [it + '=-' if it in TABLES and not following.endswith('.' + it[2:]) and following != '-' else it
            for it, following in zip(words, [*words[1:], ''])]


def add_table(words: argparse.ArgumentParser | argparse._ActionsContainer, form: str, what: str) -> None:
    """Adds an option for a table in CSV, or results in JSON: to standard output, or to a file."""
    words.add_argument('--' + form, metavar='[FILE.%s]' % form, help='%s, to this file or to standard output' % what)


def add_parameter(words: argparse.ArgumentParser, what: str) -> None:
    """Adds the option for the values of a parameter of a plan."""
    words.add_argument('--param', action='append', default=[], metavar='NAME=VALUES', help=what)


def add_expectation(words: argparse.ArgumentParser, what: str = 'an expectation, instead of a file of expectations '
                    '(more than once for several)') -> None:
    """Adds the option for an expectation that is in no file."""
    words.add_argument('--expect', action='append', default=[], metavar='EXPECTATION', help=what)


def add_faults(words: argparse.ArgumentParser, which: str = 'the run') -> None:
    """Adds the options for the faults of a run."""
    words.add_argument('--fault', action='append', default=[], metavar='FAULT',
                       help='a fault of %s, such as "link 1 to 2 is broken" (more than once for several)' % which)
    words.add_argument('--faults', metavar='FILE', help='a file with faults of %s, one in each line' % which)


def one_of(named: str | None, given: Sequence[str]) -> str | None:
    """The only expectation: the one without an option, or that of `--expect`."""
    found = [*([] if named is None else [named]), *given]
    if len(found) > 1:
        raise Fault('this command takes only one expectation')
    return found[0] if found else None


def number_above_0(word: str) -> float:
    """The value of a limit."""
    with suppress(ValueError):
        if (number := float(word)) > 0:
            return number
    raise argparse.ArgumentTypeError('%s is not a number greater than 0' % word)


def whole_above_0(word: str) -> int:
    """The value of a limit, or of a number of runs."""
    with suppress(ValueError):
        if (number := int(word)) > 0:
            return number
    raise argparse.ArgumentTypeError('%s is not a whole number of at least 1' % word)


def add_limits(words: argparse.ArgumentParser, seconds: float | None = 120, memory: int | None = 2048,
               report: int | None = 256, usual: str = '') -> None:
    """Adds the options for the limits of a run, but for those without a usual value; `usual` describes that of the
    seconds, if they have none."""
    for name, default, kind, what in (
            ('seconds', seconds, number_above_0, 'the limit of a run, in seconds of processor time'),
            ('memory', memory, whole_above_0, "the limit of a run's memory, in megabytes"),
            ('report', report, whole_above_0, 'the limit of a report, in megabytes')):
        if default is not None or name == 'seconds':
            words.add_argument('--' + name, type=kind, default=default, metavar='N',
                               help='%s (%s)' % (what, usual if default is None else '%g' % default))


def add_jobs(words: argparse.ArgumentParser) -> None:
    """Adds the option for the number of runs that are made at once."""
    words.add_argument('--jobs', type=whole_above_0, default=os.cpu_count() or 1, metavar='N',
                       help='the number of simultaneous runs (one for each processor)')


def words_of(about: str | None, name: str = '') -> Words:
    """The parser of a tool's arguments; its help begins with the docstring of the tool's module."""
    words = Words(prog=name or name_of_command(), description=about,
                  formatter_class=argparse.RawDescriptionHelpFormatter)
    words.add_argument('--version', action=Version, nargs=0, help='print the version, and exit')
    return words
