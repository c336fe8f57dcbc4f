"""Searches for sets of faults that break expectations, and shows them. tools/search is the command."""
from __future__ import annotations

import argparse
import sys
from pathlib import Path

from motesim import output
from motesim.faults import INTERRUPTED, Fault
from motesim.files import refuse_inputs
from motesim.judge.expectations import beside, parts_of, text_of
from motesim.report.run import refuse_others
from motesim.runner.interrupt import Break
from motesim.scenario import Scenario
from motesim.scenario.refused import check
from motesim.surveys.found import as_csv, as_json, write_files, write_text
from motesim.surveys.kinds import kinds_asked
from motesim.surveys.progress import ProgressOfSearch
from motesim.surveys.say import last_lines, lines_of, verdict_lines
from motesim.surveys.searching import LIMITS, Asked, Result, search_of
from motesim.surveys.study import check_studies
from motesim.surveys.survey import Bounds

MEGABYTE = 1 << 20
# The most faults of a set.
MOST_FAULTS = 255


def expectations_of(words: argparse.Namespace) -> Path:
    """The file of expectations."""
    return Path(words.expectations) if words.expectations else beside(Path(words.scenario))


def texts_of(words: argparse.Namespace) -> list[str]:
    """The expectations of the command line, or of a file. A line says what else a file has."""
    scenario, path = Path(words.scenario), expectations_of(words)
    if words.expect:
        return list(words.expect)
    if not words.expectations and scenario.exists() and not path.exists():
        raise Fault('there is no file %s next to %s: name another, or use --expect' % (path, scenario))
    if ' ' in str(path) and not path.exists():
        raise Fault('there is no file %s: if this is an expectation, write --expect before it' % path)
    part = parts_of(text_of(path), str(path))[0]
    if part.python or part.report is not None:
        print('%s: a search checks no `report`, and no function of `python`' % path, file=sys.stderr)
    return part.sentences


def scenario_of(words: argparse.Namespace) -> Scenario:
    """The scenario to be searched, with the format of packets of its expectations."""
    path = expectations_of(words)
    refuse_others(words.scenario)
    text = text_of(Path(words.scenario))
    check(words.scenario, text.encode())
    found = Scenario.parse(text)
    if path.is_file():
        found.fields = parts_of(text_of(path), str(path))[0].fields
    return found


def asked_of(words: argparse.Namespace) -> Asked:
    """The search that the command line asks for."""
    at_most = words.at_most if words.at_most is not None else MOST_FAULTS if words.how_many else 1
    bounds = Bounds(at_most, words.most_runs)
    return Asked(scenario_of(words), texts_of(words), kinds_asked(words), bounds, words.most_seconds, words.how_many)


def refuse_all_inputs(words: argparse.Namespace, folder: Path) -> None:
    """Raises a fault if the search would write a file over its scenario or its expectations."""
    inputs = [Path(words.scenario), expectations_of(words)]
    for name, option in (words.csv, '--csv'), (words.json, '--json'):
        if name and name != '-':
            refuse_inputs(name, inputs, option)
    refuse_inputs(folder / 'found.csv', inputs)


def searched(words: argparse.Namespace, asked: Asked, folder: Path) -> Result:
    """Searches, and writes the counter-examples into a folder."""
    progress = ProgressOfSearch()
    with Break() as stop:
        result = search_of(asked, words.jobs, LIMITS._replace(seconds=words.seconds, report=words.report * MEGABYTE),
                           lambda: stop.is_asked, progress.show_size)
    progress.end()
    if not result.wanted:
        raise Fault('%s breaks each of the expectations without a fault, so there is nothing to search for; '
                    'tools/expect shows why' % words.scenario)
    if folder.exists() and not folder.is_dir():
        raise Fault('%s is a file: name a folder with -o' % folder)
    folder.mkdir(parents=True, exist_ok=True)
    write_files(result.found, words.scenario, folder)
    write_text(folder / 'found.csv', as_csv(result.found))
    return result


def show(words: argparse.Namespace, result: Result, folder: Path) -> int:
    """Shows the results; returns the status: 1 if an expectation is broken, 0 if all hold with all sets, and 2 if
    neither is known."""
    tables = {words.csv: as_csv(result.found), words.json: as_json(result, words.scenario) if words.json else ''}
    for name, table in tables.items():
        if name not in (None, '-'):
            write_text(Path(name), table)
    if '-' in tables:
        print(tables['-'], end='')
    else:
        lines = last_lines(result, folder, Path(words.scenario))
        for row in (*lines_of(result), *verdict_lines(result, words.all), '', *lines):
            print(row)
    if result.ended_by == 'it was stopped':
        return INTERRUPTED
    return 1 if result.found else 2 if result.ended_by else 0


def checked(files: list[str], jobs: int) -> int:
    """Checks fault studies; returns the status."""
    counts = [check_studies(Path(it), jobs) for it in files]
    passed, failed = (sum(column) for column in zip(*counts))
    print('%d passed, %d failed' % (passed, failed))
    return 1 if failed else 0


def status_of(words: argparse.Namespace) -> int:
    """Searches, or checks fault studies; returns the status."""
    if words.expectations and words.expect:
        raise Fault('the expectations are in a file or in --expect, not in both')
    if words.studies:
        return checked(words.studies, words.jobs)
    stem = Path(words.scenario).name.removesuffix('.toml')
    folder = Path(words.output) if words.output else output.beside(words.scenario, stem + '.search')
    asked = asked_of(words)
    refuse_all_inputs(words, folder)
    return show(words, searched(words, asked, folder), folder)
