"""Shrinks a scenario for the page, by tools/shrink in a process of its own.

    small_text(text, sentence, limits)      # a small scenario, in which the same faults break the sentence
"""
from __future__ import annotations

import os
import subprocess
import sys
import tempfile
from pathlib import Path

from motesim.faults import Fault
from motesim.runner import Limits, ending
from motesim.scenario.fault_text import lines_of
from motesim.studio.answers import faults_of, with_faults

TOOLS = Path(__file__).resolve().parent.parent.parent
SHRINK = 'from motesim.commands.shrink import main; main()'


def small_text(text: str, sentence: str, limits: Limits) -> str:
    """A scenario, made as small as possible, in which the sentence is broken as in this one, by the same faults."""
    with tempfile.TemporaryDirectory(prefix='motesim-shrink-') as room:
        named, small, faults = (Path(room, name) for name in ('scenario.toml', 'small.toml', 'small.faults'))
        named.write_text(text, 'utf-8', newline='')
        words = [str(named), sentence, '-o', str(small), '--seconds', str(limits.seconds),
                 *('--fault=' + it for it in faults_of(text))]
        process = ending.started(lambda: subprocess.Popen(
            [sys.executable, '-c', SHRINK, *words], env={**os.environ, 'PYTHONPATH': str(TOOLS)}, process_group=0,
            stdin=subprocess.DEVNULL, stdout=subprocess.DEVNULL, stderr=subprocess.PIPE))
        said = process.communicate()[1].decode('utf-8', 'replace').strip()
        ending.end(process)
        if not small.exists():
            # (an error of a tool begins with the tool's name)
            raise Fault(said.partition(': ')[2] or 'the shrinking was stopped')
        return with_faults(small.read_text('utf-8'), lines_of(faults.read_text('utf-8')) if faults.exists() else [])
