"""Simulates a scenario, and writes its report to standard output.

  motesim run net.toml >net.report
  motesim net.toml                      the same

In a clone ./run does this, and also compiles a faster motesim where the Rattle kit is. docs/use/REPORT.md describes
reports. If the scenario has an error, the command explains it, as tools/explain does.

The command ends with status 0, or with 2 if there is no report.
"""
from __future__ import annotations

import argparse

from motesim.command import command
from motesim.words import Words, add_faults, words_of


def parser() -> Words:
    words = words_of(__doc__)
    words.add_argument('file', nargs='?', default='-', metavar='FILE', help='a scenario; without it, standard input')
    add_faults(words)
    words.add_argument('--workers', metavar='N', help='only of a compiled motesim: run the motes on 1 to 16 workers')
    words.add_argument('--cut', choices=['block', 'stripe'], help='with --workers: how the motes are divided')
    words.add_argument('--sync', choices=['joins', 'marks'],
                       help='with --workers: how the workers wait for one another')
    return words


def options_of(asked: argparse.Namespace) -> list[str]:
    """The options of motesim that are asked for."""
    return [it for name in ('workers', 'cut', 'sync') if getattr(asked, name) is not None
            for it in ('--' + name, getattr(asked, name))]


@command('run')
def main() -> int:
    asked = parser().parse_args()
    from motesim.explain.whole_run import status_of
    from motesim.scenario.fault_text import faults_asked
    return status_of(asked.file, options_of(asked), faults_asked(asked))
