"""Stands in for the built program where pages are tested: it reads a scenario, and writes a report of what its text
seems to do. All motes boot; each `print N` in a program is printed then; mote 0 sends each `send N`, one every ten
moments, and those that hear it take what comes.

    with stand_in.program() as path: ..         # MOTESIM names it

A text with `never_ends` runs on, one with `long_report` writes without an end, and one with `much_memory` takes more
and more memory.
"""
import contextlib
import os
import re
import signal
import sys
import tempfile
from collections.abc import Iterator
from pathlib import Path

from motesim.scenario import Scenario
from motesim.scenario.faults import find_fault

STARTS = ['0 start %s' % name for name in ('etimer', 'ctimer', 'radio')]


@contextlib.contextmanager
def program() -> Iterator[Path]:
    """A program that stands in, named by MOTESIM. It starts without the modules of the tests."""
    from unittest import mock
    tests = Path(__file__).resolve().parent
    with tempfile.TemporaryDirectory() as room:
        path = Path(room, 'motesim')
        folders = [str(tests), str(tests.parent)]
        path.write_text('#!%s -S\nimport sys\nsys.dont_write_bytecode = True\nsys.path[:0] = %r\n'
                        'import stand_in\nsys.exit(stand_in.main())\n' % (sys.executable, folders))
        path.chmod(0o755)
        with mock.patch.dict(os.environ, MOTESIM=str(path)):
            yield path


class Text:
    """A guess of a program's actions from its text."""

    def __init__(self, source: str) -> None:
        source = re.sub('//.*', '', source)
        self.process = re.findall(r'process\s+(\w+)', source)[0]
        self.prints = [int(it) for it in re.findall(r'\bprint\s+(\d+)', source)]
        self.sends = [int(it) for it in re.findall(r'\bsend\s+(\d+)', source)]


def packets(scenario: Scenario, text: Text) -> Iterator[tuple[int, int, int, list[tuple[int, int | None]]]]:
    """The packets of mote 0: the moment, the number, the value, and the copies with their arrivals."""
    for number, value in enumerate(text.sends):
        at = 10 * (number + 1)
        if at <= scenario.end:
            yield at, number, value, [(to, None if scenario.losses.get((0, to))
                                       and (number + 1) % scenario.losses[0, to] == 0 else at + scenario.delay(0, to))
                                      for to in scenario.hearers(0)]


def report(scenario: Scenario) -> list[str]:
    texts = {name: Text(source) for name, source in scenario.programs.items()}
    sent = list(packets(scenario, texts[scenario.places[0].program]))
    lines, left = [], 0
    for mote, place in enumerate(scenario.places):
        text = texts[place.program]
        lines += ['mote %d %s' % (mote, place.program), *STARTS, '0 start %s' % text.process]
        lines += ['0 print %s %d' % (text.process, value) for value in text.prints]
        came = sorted((at, number, value) for _, number, value, copies in sent for to, at in copies
                      if to == mote and at is not None)
        if mote == 0:
            for at, number, value, _ in sent:
                lines += ['%d post %d %s timer 0' % (at, number, text.process),
                          '%d take %d %s' % (at, number, text.process), '%d send %d %d' % (at, number, value)]
        for serial, (at, number, value) in enumerate(it for it in came if it[0] <= scenario.end):
            lines += ['%d recv 0 %d %d' % (at, number, value), '%d post %d %s packet %d' % (at, serial, text.process,
                value), '%d take %d %s' % (at, serial, text.process)]
    lines.append('medium')
    for at, number, value, copies in sent:
        left += sum(arrival is not None and arrival > scenario.end for _, arrival in copies)
        lines.append(' '.join(['%d 0 %d %d' % (at, number, value),
                               *('%d@%s' % (to, 'lost' if arrival is None else arrival) for to, arrival in copies)]))
    return lines + ['left %d' % left]


def main() -> int:
    data = sys.stdin.buffer.read()
    if b'never_ends' in data:
        signal.pause()
    while b'long_report' in data:
        sys.stdout.write('0 print a 1\n' * 10_000)
    taken = []
    while b'much_memory' in data:
        try:
            taken.append(bytearray(16 << 20))
        except MemoryError:
            sys.stderr.write('motesim: out of memory\n')
            return 1
    fault = find_fault(data)
    if fault:
        sys.stderr.write('motesim: %s\n' % fault.message)
        return 1
    print('\n'.join(report(Scenario.parse(data))))
    return 0
