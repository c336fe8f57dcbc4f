"""Measures motesim: tools/dev/bench [NAME ..] [--against PROGRAM] [--rounds N] [--host]

Runs motesim on the scenarios of bench/, on one thread and with workers of both kinds of synchronisation. For each
scenario and each way to run it, the tool prints three measures: the seconds of processor time (user time), the seconds
of the clock, and the memory. Each of them is the least value of all rounds. If --against names an earlier binary, the
two binaries run alternately. Then the tool also divides each measure by that of the earlier binary in the same round,
and prints the median, the least and the greatest of these ratios. The status is 1 if a scenario has two different
reports, and otherwise 0.

With --host, the tool counts instructions instead, by Valgrind, on one thread and with a tenth of the moments: those of
motesim, and those of the same programs in compiled C (the host of tools/export --to contiki --host, gcc -O2). Their
ratio doesn't depend on other programs that are running.
"""
from __future__ import annotations

import hashlib
import os
import re
import shutil
import statistics
import subprocess
import tempfile
import time
from collections.abc import Iterable, Sequence
from pathlib import Path
from typing import NamedTuple

from motesim.command import command
from project.differential.host_runs import HostRuns, compilers
from motesim.faults import Fault
from motesim.words import words_of
from motesim.runner.programs import TOP, program_path

# Each scenario with the arguments of its script. The second one is the number of moments.
SCENARIOS = {'beacons': [31, 2000, 10], 'polls': [500, 200], 'broadcasts': [8, 20000], 'timers': [64, 200000],
             'steps': [10, 1000]}
WAYS = ['', *('--workers %s --sync %s' % (workers, sync) for sync in ('joins', 'marks') for workers in '24')]
COUNTER = ['valgrind', '--tool=cachegrind', '--cache-sim=no', '--cachegrind-out-file=/dev/null']
# The form and the unit in which each measure is shown.
SHOWN = {'user': ('%.3f s', 1), 'clock': ('%.3f s', 1), 'memory': ('%.1f MB', 1e6)}


class Cost(NamedTuple):
    """The costs of one run, and the digest of its report."""
    user: float
    clock: float
    memory: float
    report: str


def generated(name: str, parts: int = 1) -> bytes:
    """A scenario of bench/, with one of so many parts of its moments."""
    first, moments, *others = SCENARIOS[name]
    return subprocess.check_output([TOP / 'bench' / name, *map(str, [first, moments // parts, *others])])


def cost_of(words: Sequence[str | Path]) -> Cost:
    """The costs of a run."""
    with tempfile.TemporaryFile() as report:
        begin = time.perf_counter()
        process = subprocess.Popen(words, stdin=subprocess.DEVNULL, stdout=report)
        _, status, used = os.wait4(process.pid, 0)
        clock = time.perf_counter() - begin
        process.returncode = os.waitstatus_to_exitcode(status)
        if process.returncode:
            raise Fault('%s ended with status %d' % (' '.join(map(str, words)), process.returncode))
        report.seek(0)
        return Cost(used.ru_utime, clock, used.ru_maxrss * 1024, hashlib.sha256(report.read()).hexdigest())


def cell(name: str, ours: Sequence[float], others: Sequence[float]) -> str:
    """A measure of this binary; and the measure of the earlier one, with the middle, the least and the greatest of the
    ratios of alternating runs."""
    form, unit = SHOWN[name]
    best = ', '.join(form % (min(it) / unit) for it in (ours, others) if it)
    ratios = [one / other for one, other in zip(ours, others) if other]
    spread = ' (%.2f to %.2f)' % (min(ratios), max(ratios)) if len(ratios) > 1 else ''
    return '%s %s%s' % (name, best, ': %.2f%s' % (statistics.median(ratios), spread) if ratios else '')


def measure(title: str, programs: Sequence[str], words: Sequence[str | Path], rounds: int) -> set[str]:
    """Runs binaries alternately, prints the costs in a line, and returns the digests of the reports."""
    turns = [[cost_of([program, *words]) for program in programs] for _ in range(rounds)]
    cells = [cell(name, *([getattr(turn[at], name) for turn in turns if at < len(turn)] for at in (0, 1)))
             for name in SHOWN]
    print('  %-28s %s' % (title, '; '.join(cells)), flush=True)
    return {cost.report for turn in turns for cost in turn}


def measure_scenario(name: str, programs: Sequence[str], rounds: int) -> bool:
    """Measures one scenario in all ways, and returns whether all its reports are the same."""
    reports = set[str]()
    print(name, *SCENARIOS[name], flush=True)
    with tempfile.TemporaryDirectory() as folder:
        scenario = Path(folder) / 'scenario.toml'
        scenario.write_bytes(generated(name))
        for way in WAYS:
            reports |= measure(way or 'one thread', programs, [*way.split(), scenario], rounds)
    if len(reports) > 1:
        print('  THE REPORTS DIFFER')
    return len(reports) == 1


def instructions_of(words: Sequence[str | Path]) -> tuple[int, bytes]:
    """The number of instructions of a run, and its report."""
    if not shutil.which('valgrind'):
        raise Fault('there is no Valgrind, which counts instructions: on Debian `apt-get install valgrind` installs it')
    done = subprocess.run([*COUNTER, *words], stdin=subprocess.DEVNULL, capture_output=True)
    found = re.search(rb'I +refs: +([0-9,]+)', done.stderr)
    if done.returncode or not found:
        raise Fault('%s ended with status %d under Valgrind' % (' '.join(map(str, words)), done.returncode))
    return int(found[1].replace(b',', b'')), done.stdout


def measure_host(names: Iterable[str], program: str) -> bool:
    """Prints the instructions of motesim and of compiled C for each scenario, and returns whether their reports are the
    same."""
    is_same = True
    with tempfile.TemporaryDirectory() as folder:
        host = HostRuns(Path(folder) / 'host')
        for name in names:
            place = Path(folder) / name
            place.mkdir()
            text = generated(name, 10)
            (place / 'scenario.toml').write_bytes(text)
            compiled = host.build(text, place, compilers()[0], ('-O2',))
            ours, report = instructions_of([program, place / 'scenario.toml'])
            others, other = instructions_of([compiled])
            is_same &= report == other
            print('%-10s  motesim %.1f M, compiled C %.1f M: %.2f%s' % (
                name, ours / 1e6, others / 1e6, ours / others, '' if report == other else '  THE REPORTS DIFFER'),
                flush=True)
    return is_same


@command('bench')
def main() -> int:
    words = words_of(__doc__)
    words.add_argument('names', nargs='*', metavar='NAME',
                       help='scenarios: %s; without a name, all' % ', '.join(SCENARIOS))
    words.add_argument('--against', metavar='PROGRAM', help='an earlier motesim, which runs alternately with this one')
    words.add_argument('--rounds', type=int, default=5, metavar='N',
                       help='make N runs of each scenario in each way (5)')
    words.add_argument('--host', action='store_true',
                       help='count instructions, against the same programs in compiled C')
    asked = words.parse_args()
    if unknown := [it for it in asked.names if it not in SCENARIOS]:
        words.error('there is no scenario %s' % unknown[0])
    if asked.host and asked.against:
        words.error('--host and --against exclude each other')
    if asked.host:
        return 0 if measure_host(asked.names or SCENARIOS, str(program_path())) else 1
    programs = [str(program_path().resolve()), *([os.path.abspath(asked.against)] if asked.against else [])]
    if len(programs) > 1:
        print('Each measure is that of %s, that of %s, and their ratio.' % tuple(programs))
    return 0 if all([measure_scenario(name, programs, asked.rounds) for name in asked.names or SCENARIOS]) else 1
