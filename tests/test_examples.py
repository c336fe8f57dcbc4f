"""Checks the statements about each example: tools/dev/check_examples [NAME ..]

For each scenario of examples/ and its cookbook the sentences of NAME.expect.toml have to hold, as tools/expect checks.
The lines of an example that README.md and the pages of docs/ quote must be in the example or in its report. For each
task of examples/lesson the solution has to meet the expectations, and the scenario that students begin with must not.
NAME is an example, `flooding`, or a task, `task1`; without a name all are checked.
"""
from __future__ import annotations

import re
from operator import attrgetter
from pathlib import Path

import pytest
from motesim.judge.expectations import beside, expect
from motesim.judge.links import Links
from motesim.report import Report
from motesim.runner.programs import TOP
from motesim.report.run import Run, read_run

PAGES = ['examples/README.md', 'examples/cookbook/README.md', 'docs/use/SCENARIO.md', 'docs/use/REPORT.md']
EXPECTED = '.expect.toml'
LESSON = TOP / 'examples/lesson'
EXAMPLES = [it for folder in ('', 'cookbook/') for it in sorted(TOP.glob('examples/%s*.toml' % folder))
            if not it.name.endswith(EXPECTED)]
TASKS = sorted(LESSON.glob('*' + EXPECTED))


def check_readings(run: Run) -> None:
    """Fails unless each mote sends its own reading from 300 on, and one for each mote below it. No form of sentence
    expresses this."""
    assert run.scenario
    links = Links(run.scenario)
    below = {mote.number: 1 for mote in run.report.motes}
    for mote in sorted(run.report.motes[1:], key=lambda mote: -links.hops(0, mote.number)):
        parents = [line.value or 0 for line in mote.lines if line.kind == 'print' and line.process == 'parent']
        sends = [line for line in mote.lines if line.kind == 'send' and line.at >= 300]
        assert len(sends) == below[mote.number], 'mote %d sends another number of readings' % mote.number
        below[parents[-1]] += below[mote.number]


def quotes_of(page: str) -> list[tuple[str, str]]:
    """The lines of a page's code blocks, each with the example, NAME.toml, whose name is the last one above the
    line. What commands print is no quote: test_pages runs them."""
    quotes: list[tuple[str, str]] = []
    name = block = None
    for line in page.split('\n'):
        if line.startswith('```'):
            block = None if block else line
            name = None if line == '```sh' else name
        elif block in ('```', '```toml') and name:
            quotes.append((name, line))
        elif not block and (names := re.findall(r'([\w.]+)\.toml', line)):
            name = names[-1]
    return quotes


def check_quotes(scenario: str, report: Report, quotes: list[tuple[str, str]]) -> None:
    """Fails if a quoted line is neither in the scenario nor in its report."""
    lines = {line.strip() for line in [*scenario.split('\n'), *report.rows()]} | {'', '..'}
    for page, line in quotes:
        if line.strip() not in lines:
            pytest.fail('%s quotes a line that is not there: `%s`' % (page, line), pytrace=False)


def check_sentences(scenario: Path, expectations: Path) -> None:
    """Fails if a sentence doesn't hold; each one that doesn't is printed."""
    held, broken = expect(scenario, expectations, is_quiet=True)
    if broken:
        pytest.fail('%s: %d sentences hold, %d are broken' % (expectations.name, held, broken), pytrace=False)


def check_example(example: Path) -> None:
    check_sentences(example, beside(example))
    quotes = [(page, line) for page in PAGES for name, line in quotes_of((TOP / page).read_text('utf-8'))
              if name == example.stem]
    if quotes:
        check_quotes(example.read_text('utf-8'), read_run(example).report, quotes)
    if example.stem == 'collection_tree':
        check_readings(read_run(example))


def check_task(task: Path) -> None:
    check_sentences(LESSON / 'solutions' / task.name.replace(EXPECTED, '.toml'), task)
    _, broken = expect(LESSON / 'start.toml', task, is_quiet=True)
    assert broken, 'there is nothing to do: start.toml meets all expectations'


def pytest_generate_tests(metafunc: pytest.Metafunc) -> None:
    """Has a test for each example and each task, or for those with one of the names."""
    known = {it.name.partition('.')[0]: it for it in [*EXAMPLES, *TASKS]}
    names: list[str] = metafunc.config.getoption('name') or list(known)
    for name in names:
        if name not in known:
            raise pytest.UsageError('there is no example or task %s; there are: %s' % (name, ', '.join(known)))
    metafunc.parametrize('path', [known[it] for it in names], ids=attrgetter('name'))


def test_statements(path: Path) -> None:
    (check_task if path in TASKS else check_example)(path)
