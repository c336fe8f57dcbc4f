"""Simulates a scenario: ./run FILE, or ./run with the scenario on standard input.

The proved motesim of these sources runs if it has been built, and otherwise one that is compiled without a proof. If
there is neither, node runs the WebAssembly module of these sources; without node, or with --workers or --unproved,
motesim is compiled first. A line on standard error says what runs. The environment variable MOTESIM names another
motesim.

If the scenario has an error, the command explains it, as tools/explain does, and compiles nothing. The status is 0, or
another one if there is no report. docs/use/REPORT.md describes reports.
"""
from __future__ import annotations

import argparse
import os
import shutil
import sys
from pathlib import Path

from motesim.command import become, command
from motesim.commands import run
from motesim.explain.whole_run import explained, status_of
from motesim.faults import FAILED, Fault
from motesim.report.run import refuse_others
from motesim.runner.programs import (
    IN_NODE, NOT_PROVED, PROGRAM, TOP, is_compiled, is_module, module_program, nothing_runs, program_of_sources,
    program_path,
)
from motesim.scenario.encodings import read_file
from motesim.scenario.fault_text import faults_asked
from motesim.words import Words
from project.compile import compile_program

NO_OPTIONS = 'without the Rattle kit, which compiles motesim, there is only its WebAssembly module, which has no ' \
             'workers: leave them out'


def parser() -> Words:
    words = run.parser()
    words.description = __doc__
    words.add_argument('--unproved', action='store_true',
                       help='run a motesim that is compiled without a proof, even if a proved one is built')
    return words


def say(line: str) -> None:
    print('motesim: ' + line, file=sys.stderr, flush=True)


def program_for(asked: argparse.Namespace) -> Path:
    """The program that runs; if none is built, the script of the module, or a program that is compiled now."""
    if os.environ.get('MOTESIM') and not asked.unproved:
        return program_path().resolve()
    found = program_of_sources(may_be_proved=not asked.unproved)
    if found is None:
        module = None if asked.unproved or asked.workers else module_program()
        if module is None and not shutil.which('rt'):
            raise Fault(NO_OPTIONS if module_program() else nothing_runs())
        found = module or compile_program()
    if is_module(found):
        say(IN_NODE)
    elif is_compiled(found):
        say(NOT_PROVED)
    return found


@command('run')
def main() -> int:
    sys.argv[0] = str(TOP / 'run')
    asked = parser().parse_args()
    options, faults, file = run.options_of(asked), faults_asked(asked), asked.file
    if faults:
        return status_of(file, options, faults)
    if file == '-' and os.isatty(0):
        say('waiting for a scenario on standard input, which ends with Ctrl-D (./run FILE reads a file)')
    # (a pipe can be read only once)
    if file == '-' or Path(file).is_fifo():
        os.environ['MOTESIM'] = str(program_for(asked))
        return status_of(file, options)
    refuse_others(file)
    if explained(file, read_file(file)):
        return FAILED
    become(program_for(asked), [PROGRAM, *options, file])
