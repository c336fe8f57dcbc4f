"""Makes a failing scenario as small as possible, and writes it. tools/shrink is the command."""
from __future__ import annotations

import argparse
import contextlib
import sys
from pathlib import Path

from motesim import output
from motesim.runner.interrupt import Break
from motesim.faults import INTERRUPTED, Fault
from motesim.explain.within import answer_within
from motesim.files import refuse_inputs
from motesim.judge.expectations import beside, fields_beside, parts_of, text_of
from motesim.judge.names import names_of
from motesim.judge.several import read_all
from motesim.judge.finder import Finder
from motesim.judge.verdicts import breaks
from motesim.progress import Progress
from motesim.report.run import refuse_others, run_of
from motesim.runner import Runner, program_path
from motesim.scenario.fault_text import faults_asked, read_faults
from motesim.scenario.made import MADE_SMALL
from motesim.scenario.refused import check
from motesim.scenario.scenario import Scenario
from motesim.surveys.found import expectations_text, faults_text, write_text
from motesim.surveys.net import Net, net_of
from motesim.surveys.searching import LIMITS
from motesim.surveys.shrink import Case, Shrinking
from motesim.surveys.smaller import statements_in
from motesim.causes.say import of_cause

OTHER_CAUSE = 'Another cause now: --fault or --keep may prevent it'
STOPPED = 'it was stopped before the first step, so no file is written'


def first_broken(name: str, scenario: Scenario, path: Path, program: Runner) -> str:
    """The first sentence of a file of expectations that the run of a scenario breaks, with its faults."""
    texts = parts_of(text_of(path), str(path))[0].sentences
    report = run_of(name, scenario.text.encode(), program).report
    broken = breaks(read_all(texts, names_of(scenario)), Finder(report, scenario))
    for text, its in zip(texts, broken):
        if its:
            return text
    raise Fault('%s breaks no expectation of %s' % (name, path))


def sizes(net: Net) -> str:
    """The sizes of a scenario, in words."""
    statements = sum(statements_in(program) for _, program in net.programs)
    parts = [(len(net.motes), 'mote', 'motes'), (len(net.losses), 'loss', 'losses'),
             (len(net.programs), 'program', 'programs'), (statements, 'statement', 'statements')]
    return '%s, end = %d' % (', '.join('%d %s' % (it[0], it[1 if it[0] == 1 else 2]) for it in parts), net.end)


def motes_before(shrinking: Shrinking, net: Net, name: str) -> str:
    """If motes were removed, comments with the number and the place that each mote had before."""
    if len(shrinking.motes) == len(net.motes):
        return ''
    return ''.join('# Mote %d is mote %d of %s, at %d, %d there.\n' % (
        mote, before, name, net.motes[before].x, net.motes[before].y) for mote, before in enumerate(shrinking.motes))


def is_made(path: Path) -> bool:
    """Returns whether a file is an earlier result."""
    with contextlib.suppress(OSError):
        return path.read_bytes().startswith(MADE_SMALL.encode())
    return False


def write_result(shrinking: Shrinking, name: str, path: Path) -> None:
    """Writes the scenario with its expectation, and with its faults."""
    case = shrinking.case
    head = '%s%s. It still breaks: %s\n' % (MADE_SMALL, name, ' '.join(case.sentence.split()))
    head += motes_before(shrinking, shrinking.first.net, name)
    write_text(path, head + case.net.text)
    write_text(beside(path), expectations_text((case.sentence, *case.keeps), shrinking.fields))
    if case.faults:
        write_text(path.with_suffix('.faults'), faults_text([it.text for it in case.faults]))


def show(shrinking: Shrinking, path: Path, name: str, is_over_another: bool) -> None:
    """Prints the lines about the result of a scenario of this name."""
    case, faults = shrinking.case, '; '.join(it.text for it in shrinking.case.faults)
    print('before: %s' % sizes(shrinking.first.net))
    print('now:    %s' % sizes(case.net))
    print('%d steps, %d runs; %s' % (shrinking.steps, shrinking.runs, 'no further step is possible'
                                     if shrinking.is_whole else 'STOPPED: more steps may be possible'))
    print('%s%s breaks: %s' % (path, ', written over an earlier file,' * is_over_another, case.sentence))
    if faults:
        print('  with the faults of %s: %s' % (path.with_suffix('.faults'), faults))
    if shrinking.renumbered:
        print('  in %s, %s' % (name, shrinking.renumbered))
    if causes := shrinking.causes():
        print(OTHER_CAUSE)
        for when, cause in zip(('before:', 'now:   '), causes):
            print('  %s %s' % (when, of_cause(cause) or 'none was found'))


def shrunk(asked: argparse.Namespace, program: Runner, stop: Break) -> int:
    """Makes the scenario small, and shows the result; returns the status."""
    path, name = Path(asked.scenario), Path(asked.scenario).name
    refuse_others(path)
    text = text_of(path)
    check(asked.scenario, text.encode())
    scenario = Scenario.parse(text)
    scenario.fields, scenario.faults = fields_beside(path), faults_asked(asked)
    small = name.removesuffix('.toml') + '.small.toml'
    made = Path(asked.output) if asked.output else output.beside(asked.scenario, small)
    is_file = not asked.expectation or asked.expectation.endswith('.toml')
    expected = Path(asked.expectation) if asked.expectation else beside(path)
    for it in made, beside(made), made.with_suffix('.faults'):
        refuse_inputs(it, [path, expected, asked.faults])
    is_over_another = made.exists()
    if is_over_another and not (asked.output or is_made(made)):
        raise Fault('%s exists, and isn\'t an earlier result of tools/shrink: name another file with -o' % made)
    sentence = asked.expectation
    if is_file:
        sentence = first_broken(asked.scenario, scenario, expected, program.with_faults(scenario.faults))
    read_all([sentence, *asked.keep], names_of(scenario))
    # (a limit, or an error in a fault, is told before the first step)
    answer_within(asked.scenario, scenario.text.encode(), program.limits, scenario.faults)
    case, progress = Case(net_of(scenario), sentence, (*read_faults(scenario.faults),), (*asked.keep,)), Progress()
    shrinking = Shrinking(program, case, fields=scenario.fields)

    def is_over() -> bool:
        if progress.is_due():
            progress.show('%s: %d steps, %d runs' % (made.name, shrinking.steps, shrinking.runs))
        return stop.is_asked

    shrinking.is_over = is_over
    shrinking.run()
    progress.end()
    if stop.is_asked and not shrinking.steps:
        raise Fault(STOPPED)
    write_result(shrinking, name, made)
    show(shrinking, made, name, is_over_another)
    return 0 if shrinking.is_whole else INTERRUPTED


def status_of(asked: argparse.Namespace) -> int:
    """The work of tools/shrink, which Ctrl-C ends early; returns the status."""
    with Break() as stop:
        program = Runner(program_path(), LIMITS._replace(seconds=asked.seconds), lambda: stop.is_asked)
        try:
            return shrunk(asked, program, stop)
        except Fault:
            if not stop.is_asked:
                raise
            # (without its run, the scenario may seem to break nothing)
            print('shrink: %s' % STOPPED, file=sys.stderr)
            return INTERRUPTED
