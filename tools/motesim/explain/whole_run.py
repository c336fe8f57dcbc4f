"""Runs a scenario with the standard output of this process, or explains why it has no report."""
from __future__ import annotations

import subprocess
import sys
from collections.abc import Sequence
from pathlib import Path

from motesim.explain.explanation import explanation
from motesim.faults import CLOSED, FAILED, Fault
from motesim.report.run import refuse_others
from motesim.runner.process import options_of, refusal_of
from motesim.runner.programs import CHECKER, program_path
from motesim.scenario.encodings import read_file
from motesim.scenario.faults import find_fault
from motesim.text import folded


def explained(file: str, data: bytes) -> bool:
    """Explains the error of a scenario; returns whether it has one."""
    fault = find_fault(data)
    if fault:
        line = 'motesim: ' + fault.message
        print('\n'.join([line, *folded(explanation(file, data, line))]), file=sys.stderr)
    return fault is not None


def status_of(file: str, options: Sequence[str], faults: Sequence[str] = ()) -> int:
    """The work of `motesim run`, with these faults; returns the status."""
    data = read_file(file)
    refuse_others(file)
    if explained(file, data):
        return FAILED
    called: list[str | Path] = [program_path()]
    if faults:
        called = [program_path(CHECKER), '--report', *options_of(faults), '/dev/stdin']
    done = subprocess.run([*called, *options], input=data, stderr=subprocess.PIPE)
    said = done.stderr.decode('utf-8', 'backslashreplace')
    if refusal := refusal_of(said.strip(), faults):
        raise Fault(refusal)
    sys.stderr.write(said)
    return done.returncode if done.returncode in (0, CLOSED) else FAILED
