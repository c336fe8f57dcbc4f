"""Compares motesim with the host on random scenarios: tools/differential [--seed S] [--count N]

The host is a second simulator, in C (docs/use/KERNEL.md). The host runs each scenario once. motesim runs it on one
thread, and with workers of both kinds of synchronisation. All these runs have to write the same bytes. If a report
differs, the tool reduces the scenario as long as its reports still differ, and writes the reduced scenario to a file.

  tools/differential --count 1000              the scenarios of the seeds 0 to 999
  tools/differential --seed 7000 --count 50000 the scenarios of the seeds 7000 to 56999

  tools/differential net.toml ..               scenarios of your own
  tools/differential --gate                    all examples and cases, and 300 scenarios with the commit as seed

After random scenarios, the last lines list the parts of the notation, the limits and the lines of reports that the
scenarios have reached, and those that they haven't.

The tool ends with status 0 if all reports agree, 1 if some differ, and 2 if a simulator gives no answer: before all
other scenarios, each has to answer a small one.
"""
from __future__ import annotations

import tempfile
from collections import Counter
from collections.abc import Iterable, Iterator
from dataclasses import dataclass
from itertools import chain
from pathlib import Path
from typing import NamedTuple

from motesim.command import command
from motesim.faults import Fault
from motesim.runner import Limits, Runner, pool
from motesim.runner.programs import TOP, is_module, program_path
from motesim.surveys.net import loss_steps, mote_steps, net_of, number_steps, program_steps
from motesim.scenario import Scenario, ScenarioFault
from motesim.words import words_of
from project.differential.coverage import Coverage
from project.differential.host_runs import HostFault, HostRuns, compilers
from project.differential.random_scenario import random_scenario
from project.tree import commit

GATE_COUNT = 300
# (the most scenarios that are written to files because they differ)
MOST_SHOWN = 3
WORKERS: tuple[tuple[str, ...], ...] = (('--workers', '2', '--cut', 'block', '--sync', 'joins'),
                                        ('--workers', '3', '--cut', 'stripe', '--sync', 'marks'))
SMALL = TOP / 'examples/two_motes.toml'
LIMITS = Limits(seconds=60.0, memory=2 << 30, report=256 << 20)


class Item(NamedTuple):
    """A scenario to be compared: its name, and its text or the seed from which it is made."""
    name: str
    scenario: bytes = b''
    seed: str = ''
    is_strict: bool = False


@dataclass(frozen=True)
class Failure:
    """Why the reports of a scenario don't agree: two of them differ, or a simulator has no answer."""
    is_difference: bool
    text: str

    def __str__(self) -> str:
        return '%s: %s' % ('differs' if self.is_difference else 'no answer', self.text)


class Compared(NamedTuple):
    """The result of a comparison: why the reports don't agree, if they don't; and the features that the scenario
    reached."""
    failure: Failure | None
    reached: Counter[str]


def first_difference(one: bytes, other: bytes) -> str:
    """The first line in which two reports differ."""
    lines, others = one.split(b'\n'), other.split(b'\n')
    for number, (line, against) in enumerate(zip(lines, others), 1):
        if line != against:
            return 'line %d: `%s` and `%s`' % (number, line.decode('ascii', 'replace'),
                                              against.decode('ascii', 'replace'))
    return 'one has %d lines, the other %d' % (len(lines), len(others))


class Comparison:
    """Compares the results of motesim and of the host."""

    def __init__(self, host: HostRuns, runner: Runner, with_workers: bool = True):
        self.host = host
        self.runner = runner
        self.with_workers = with_workers

    def failure(self, scenario: bytes, is_strict: bool = False) -> tuple[Failure | None, bytes]:
        """The first simulator that doesn't agree with motesim on one thread, and why; and the report of motesim on one
        thread."""
        answer = self.runner.answer(scenario)
        if answer.status:
            raise ScenarioFault('motesim: %s' % answer.why)
        for arguments in WORKERS if self.with_workers else ():
            name, other = 'motesim %s' % ' '.join(arguments), self.runner.answer(scenario, *arguments)
            if other.status:
                return Failure(False, '%s: %s' % (name, other.why)), answer.report
            if other != answer:
                return Failure(True, '%s: %s' % (name, first_difference(answer.report, other.report))), answer.report
        try:
            report = self.host.report(scenario, is_strict)
        except HostFault as fault:
            return Failure(False, 'the host: %s' % fault), answer.report
        if report != answer.report:
            return Failure(True, 'motesim and the host: ' + first_difference(answer.report, report)), answer.report
        return None, answer.report

    def check(self) -> None:
        """Has each simulator run a small scenario; raises a `Fault` if one has no answer."""
        failure = self.failure(SMALL.read_bytes())[0]
        if failure and not failure.is_difference:
            raise Fault('%s (--one-thread leaves out the runs with workers)' % failure)

    def compare(self, item: Item) -> Compared:
        reached: Counter[str] = Counter()
        scenario = item.scenario or random_scenario(item.seed, reached)
        failure, report = self.failure(scenario, item.is_strict)
        reached.update(Coverage.of_report(report))
        return Compared(failure, reached)

    def smallest(self, scenario: bytes, is_strict: bool = False) -> bytes:
        """The smallest scenario that still differs: everything that isn't needed for the difference is removed."""
        net = net_of(Scenario.parse(scenario))
        is_smaller = True
        while is_smaller:
            is_smaller = False
            for steps in mote_steps, loss_steps, program_steps, number_steps:
                at = 0
                while True:
                    tried = list(steps(net))
                    for offset in range(len(tried)):
                        step = tried[(at + offset) % len(tried)]
                        if self.is_different(step.net.text.encode(), is_strict):
                            net, at, is_smaller = step.net, (at + offset) % len(tried), True
                            break
                    else:
                        break
        return net.text.encode()

    def is_different(self, scenario: bytes, is_strict: bool = False) -> bool:
        try:
            return self.failure(scenario, is_strict)[0] is not None
        except Fault:
            return False


def items_of_files(names: list[str]) -> Iterator[Item]:
    for name in names:
        try:
            yield Item(name, Path(name).read_bytes(), is_strict=True)
        except OSError as fault:
            raise Fault('%s: %s' % (name, fault.strerror)) from None


def random_items(seed: str, count: int) -> Iterator[Item]:
    """The items of consecutive seeds. The seeds are numbers from a first one on; or a word, such as a commit, to which
    -0, -1, .. are added."""
    for number in range(count):
        name = str(int(seed) + number) if seed.isdecimal() else '%s-%d' % (seed, number)
        yield Item('the scenario of seed %s' % name, seed=name)


def compare_all(items: Iterable[Item], work: Comparison, folder: Path,
                jobs: int | None) -> tuple[int, list[Failure], Coverage]:
    """Compares items; returns how many agree, why the others don't, and the features that were reached."""
    agreed, failures, coverage = 0, list[Failure](), Coverage()
    with pool(lambda its: its.compare, work, jobs, seconds=300.0) as workers:
        for done in workers.results(items):
            failure = done.result.failure if done.result else Failure(False, done.fault or 'it was ended')
            if done.result:
                coverage.add(done.result.reached)
            if not failure:
                agreed += 1
            else:
                failures.append(failure)
                print('%s: %s' % (done.item.name, failure), flush=True)
                scenario = done.item.scenario or random_scenario(done.item.seed)
                if len(failures) <= MOST_SHOWN and done.result:
                    scenario = work.smallest(scenario, done.item.is_strict)
                    print('  the smallest: %s' % work.failure(scenario, done.item.is_strict)[0])
                if len(failures) <= MOST_SHOWN:
                    path = folder / ('differs_%d.toml' % len(failures))
                    path.write_bytes(scenario)
                    print('  the scenario is in %s' % path, flush=True)
    return agreed, failures, coverage


@command('differential')
def main() -> int:
    words = words_of(__doc__)
    words.add_argument('scenario', nargs='*', metavar='SCENARIO', help='scenarios to compare instead of random ones')
    words.add_argument('--seed', default='0',
                       help='the first seed, a number (0); or a word, to which -0, -1, .. are added')
    words.add_argument('--count', type=int, default=100, metavar='N', help='the number of random scenarios (100)')
    words.add_argument('--jobs', type=int, metavar='N', help='the number of processes (one for each processor)')
    words.add_argument('--one-thread', action='store_true', help='leave out the runs with workers')
    words.add_argument('--gate', action='store_true', help='compare all examples and cases, and %d random scenarios '
                       'with the commit as seed' % GATE_COUNT)
    words.add_argument('-o', dest='folder', default='.', metavar='FOLDER',
                       help='the folder for the scenarios whose reports differ (.)')
    asked = words.parse_args()
    compilers()
    program = program_path()
    # (node's module has no workers)
    with_workers = not (asked.one_thread or is_module(program))
    runner = Runner(program=program, limits=LIMITS)
    with tempfile.TemporaryDirectory(prefix='differential-') as name:
        work = Comparison(HostRuns(Path(name)), runner, with_workers)
        work.check()
        if asked.scenario:
            items, is_random = items_of_files(asked.scenario), False
        elif asked.gate:
            seed = commit()[:12] or 'none'
            print('the random scenarios are those of --seed %s --count %d' % (seed, GATE_COUNT))
            items, is_random = chain(fixed_items(TOP), random_items(seed, GATE_COUNT)), True
        else:
            items, is_random = random_items(asked.seed, asked.count), True
        agreed, failures, coverage = compare_all(items, work, Path(asked.folder), asked.jobs)
    for line in coverage.lines() if is_random else ():
        print(line)
    print('%d passed, %d failed' % (agreed, len(failures)))
    return 1 if any(it.is_difference for it in failures) else 2 if failures else 0


def fixed_items(top: Path) -> Iterator[Item]:
    """All examples and cases that have a report."""
    paths = [it for it in sorted((top / 'examples').glob('*.toml')) if not it.name.endswith('.expect.toml')]
    paths += [it for it in sorted((top / 'tests/cases').glob('*/*.toml')) if it.with_suffix('.expected').exists()
              and it.parent.name != 'command']
    for path in paths:
        data = path.read_bytes()
        if path.name != 'wrong.toml':
            yield Item(str(path.relative_to(top)), data, is_strict=True)
    yield from made_items(top)


def made_items(top: Path) -> Iterator[Item]:
    """The cases whose scenarios are so long that Python makes them."""
    for path in sorted((top / 'tests/cases').glob('*/*.make')):
        if path.with_suffix('.stderr').exists():
            continue
        names: dict[str, object] = {}
        exec(compile(path.read_text('utf-8'), str(path), 'exec'), names)
        make = names.get('scenario')
        if callable(make):
            text = make()
            yield Item(str(path.relative_to(top)), text.encode() if isinstance(text, str) else text)
