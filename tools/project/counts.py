"""The last lines of the tests, which ./test adds up: a hook for each conftest.py."""
from __future__ import annotations

from typing import Any

import pytest


def reason_of(report: pytest.TestReport) -> str:
    """The reason why a test is skipped."""
    seen = report.longrepr
    return str(seen[2] if isinstance(seen, tuple) else seen).removeprefix('Skipped: ')


def all_tests(config: Any) -> list[str]:
    """All tests, if pytest-xdist gives up those of workers that are killed too often; otherwise none."""
    session = config.pluginmanager.getplugin('dsession')
    return [] if config.getoption('maxfail') or session is None else getattr(session.sched, 'collection', None) or []


@pytest.hookimpl(trylast=True)  # type: ignore[misc]
def pytest_terminal_summary(terminalreporter: Any) -> None:
    found = terminalreporter.stats
    for report in found.get('skipped', []):
        terminalreporter.write_line('skipped: %s: %s' % (report.nodeid, reason_of(report)))
    passed, failed, errors, skipped = ({it.nodeid for it in found.get(kind, [])}
                                       for kind in ('passed', 'failed', 'error', 'skipped'))
    lost = {*all_tests(terminalreporter.config)} - passed - failed - errors - skipped
    for name in sorted(lost):
        terminalreporter.write_line('not run: %s: its worker was killed' % name)
    # (a test that has passed may have an error at its end, or may have killed another worker)
    failed |= errors | lost
    terminalreporter.write_line('%d passed, %d failed, %d skipped' % (len(passed - failed), len(failed), len(skipped)))
