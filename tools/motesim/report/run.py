"""Runs `motesim`, and reads its answer.

    from motesim.report.run import read_run

    run = read_run('examples/flooding.toml')       # runs the scenario; a report is only read
    for mote in run.report.motes:
        sent = [line for line in mote.lines if line.kind == 'send']
        print('mote', mote.number, 'runs', mote.program, 'and sends', len(sent), 'packets')
    for packet in run.report.medium:
        print(packet.sender, 'sent', packet.value, 'to', [copy.to for copy in packet.copies], 'at', packet.at)
    print(run.scenario.hearers(0), 'hear mote 0')

Errors are `motesim.faults.Fault`, whose text can be shown to users:

    ReportFault    a text is not a report; the message names the line
    ScenarioFault  a text is not a scenario, or not that of the report
    ProgramFault   `motesim` is not built, or refuses a scenario (then it is a NoReport)
    Fault          a file can't be read
"""
from __future__ import annotations

import re
from collections.abc import Sequence
from pathlib import Path
from typing import NamedTuple

from motesim.report.belongs import check_scenario as check_scenario
from motesim.scenario.encodings import decoded, read_file
from motesim.faults import Fault
from motesim.runner.process import Answer as Answer, LimitMet, Limits, NoReport as NoReport, Runner
from motesim.runner.programs import TOP as TOP, ProgramFault as ProgramFault, program_path as program_path
from motesim.report import Report, ReportFault
from motesim.scenario import Scenario
from motesim.scenario.in_programs import ScenarioFile
from motesim.scenario.refused import check

# The beginning of a report; and that of a scenario: a comment, a table or a key.
OF_REPORT = re.compile(rb'mote 0 ')
OF_SCENARIO = re.compile(rb'(?:\xef\xbb\xbf)?\s*(?:#|\[|[A-Za-z0-9_"\'-]+\s*=)')
# The files that users take for a scenario or a report, by the ending of the name.
OTHERS = {
    '.plan.toml': '{0} is a plan, not a scenario: tools/scenario {0} -o NAME.toml makes a scenario of it',
    '.mote': '{0} is the text of a program, not a scenario: tools/explain {0} shows how to put it into one',
    '.c': '{0} is a program in C, and motesim runs its own notation: tools/explain {0} says more',
    '.csv': '{0} has results, not a report: tools/plot {0} --measure NAME --against NAME shows those of a sweep',
}


class Run(NamedTuple):
    """The input of a tool: a report, the scenario if it is known, and a name to show.

    file  the file that has the programs, if it is known
    """
    name: str
    report: Report
    scenario: Scenario | None
    file: ScenarioFile | None = None


def answer(scenario: bytes, *arguments: str, limits: Limits = Limits()) -> Answer:
    """The answer of `motesim` to a scenario on standard input, with these arguments on its command line."""
    return Runner(limits=limits).answer(scenario, *arguments)


def is_report(data: bytes) -> bool:
    """True if a text begins like a report."""
    return OF_REPORT.match(data) is not None


def is_scenario(path: str | Path, data: bytes) -> bool:
    """True if a file contains a scenario, not a report; its first line or its name shows this."""
    return not is_report(data) and (str(path).endswith('.toml') or OF_SCENARIO.match(data) is not None)


def refuse_others(path: str | Path) -> None:
    """Raises a fault if a file has the name of a program, a plan or results instead of a scenario or a report."""
    for ending, words in OTHERS.items():
        if str(path).endswith(ending):
            raise Fault(words.format(path))


def refuse_faults(path: str | Path, faults: Sequence[str]) -> None:
    """Raises a fault if a report should be run with faults."""
    if faults:
        raise Fault('%s is a report, and only a scenario can be run with a fault' % path)


def read_run(path: str | Path, scenario: str | Path | None = None, limits: Limits = Limits(),
             program: Path | None = None, faults: Sequence[str] = ()) -> Run:
    """A report from a file, with the scenario from another file if one is named.

    A scenario is run, with these faults; this is a text that begins like a scenario, or a file NAME.toml. The name `-`
    is standard input.
    """
    data = read_file(path)
    refuse_others(path)
    is_run, at, found, file = is_scenario(path, data), path, None, None
    if is_run and scenario is not None:
        raise Fault('%s is a scenario itself: leave the other one out' % path)
    if not (is_run or data.strip()):
        raise Fault('%s is empty: expected a report or a scenario' % (
            'standard input' if str(path) == '-' else path))
    if is_run:
        return run_of(str(path), data, Runner(None if faults else program, limits, faults=faults))
    decoded(str(path), data)
    refuse_faults(path, faults)
    try:
        report = Report.parse(data)
        if scenario is not None:
            at, text = scenario, read_file(scenario)
            found, file = Scenario.parse(text, str(scenario)), file_of(scenario, text)
            check_scenario(report, found)
    except ReportFault as fault:
        fault.args = ('%s: %s' % (at, fault),)
        raise
    return Run(str(path), report, found, file)


def run_of(name: str, data: bytes, runner: Runner) -> Run:
    """The run of a scenario from a file of this name, with the runner's faults. Raises a `ScenarioFault` if `motesim`
    refuses it."""
    scenario = Scenario.parse(data, name)
    scenario.faults = tuple(runner.faults)
    try:
        return Run(name, Report.parse(runner.report(data)), scenario, file_of(name, data))
    except NoReport as fault:
        check(name, data)
        raise NoReport('%s: %s' % (name, fault)) from None
    except LimitMet as fault:
        fault.args = ('%s: %s' % (name, fault),)
        raise


def file_of(path: str | Path, data: bytes) -> ScenarioFile | None:
    """A scenario's file; None for standard input."""
    return None if str(path) == '-' else ScenarioFile(Path(path).name, data.decode('utf-8', 'replace'))
