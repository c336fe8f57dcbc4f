"""Runs the tests of the tools with pytest: tools/dev/test_tools [NAME ..]

NAME is a file of tools/tests, test_report, or a part of its name; without one all are run. Prints each test that
fails, with its error, and each that is skipped, with the reason: the program or the package that it lacks. A test that
lacks the browser fails, unless `--may-skip=browser` allows that. A file without tests fails too. With `--quick`,
tests with the mark `long` of skips.py are left out. The last line is `N
passed, M failed, K skipped`. With pytest-xdist as many tests run in parallel as there are processors. After 60 minutes
the tests are ended.
"""
from __future__ import annotations

import signal
from collections.abc import Generator
from typing import Any

import here  # (it puts tools/ on the path)
import pytest
from project.counts import pytest_terminal_summary, reason_of  # noqa: F401

# Programs that some tests need: if one is missing, the reason for skipping the test begins with its name.
NEEDED = ('browser',)
# Signals that a shell has its background jobs ignore. Some tests test what they do.
HEEDED = (signal.SIGHUP, signal.SIGINT, signal.SIGQUIT)


def pytest_addoption(parser: pytest.Parser) -> None:
    parser.addoption('--may-skip', action='append', default=[], choices=NEEDED)
    parser.addoption('--quick', action='store_true')


def pytest_collection_modifyitems(config: pytest.Config, items: list[pytest.Item]) -> None:
    if config.getoption('--quick'):
        items[:] = [item for item in items if not any(
            getattr(getattr(item, its, None), 'is_long', False) for its in ('obj', 'cls'))]


def pytest_configure(config: pytest.Config) -> None:
    for one in HEEDED:
        if signal.getsignal(one) == signal.SIG_IGN:
            signal.signal(one, signal.default_int_handler if one == signal.SIGINT else signal.SIG_DFL)


@pytest.hookimpl(hookwrapper=True)  # type: ignore[misc]
def pytest_runtest_makereport(item: pytest.Item) -> Generator[None, Any, None]:
    report = (yield).get_result()
    if report.skipped:
        need = next((it for it in NEEDED if reason_of(report).startswith(it + ': ')), None)
        if need and need not in item.config.getoption('--may-skip'):
            report.outcome, report.longrepr = 'failed', reason_of(report)


@pytest.hookimpl(hookwrapper=True)  # type: ignore[misc]
def pytest_make_collect_report(collector: pytest.Collector) -> Generator[None, Any, None]:
    report = (yield).get_result()
    if isinstance(collector, pytest.Module) and report.passed and 'def test_' not in collector.path.read_text('utf-8'):
        report.outcome, report.longrepr = 'failed', '%s has no test' % collector.name
