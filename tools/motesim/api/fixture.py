"""The fixture `run` of tests with pytest: `pytest -p motesim.api.fixture`, or in a conftest.py
`pytest_plugins = ['motesim.api.fixture']`.

    import pytest

    pytestmark = pytest.mark.scenario('news.toml')           # next to the file of the test


    def test_the_news_arrive(run):
        assert run.mote(8).prints('news')
        assert run.expect('no mote sends more than once')

A scenario is run once for all tests that name it in the same words. examples/test_news.py shows more.
"""
from __future__ import annotations

import pytest

import motesim
from motesim.api.run import Run

MARK = 'scenario(file, ..): the scenario or plan of the fixture `run`, next to the test, and what motesim.run gets too'
RUNS = pytest.StashKey[dict[str, Run]]()


def pytest_configure(config: pytest.Config) -> None:
    config.addinivalue_line('markers', MARK)
    runs: dict[str, Run] = {}
    config.stash[RUNS] = runs


@pytest.fixture(name='run')
def fixture_run(request: pytest.FixtureRequest) -> Run:
    """The run of the scenario that the mark `scenario` of a test, a class or a module names."""
    mark = request.node.get_closest_marker('scenario')
    if mark is None or not mark.args:
        raise pytest.UsageError(
            "the fixture `run` needs a scenario: write @pytest.mark.scenario('NAME.toml') above the test")
    name, *given = mark.args
    path, runs = request.path.parent / name, request.config.stash[RUNS]
    key = repr((path, given, sorted(mark.kwargs.items())))
    if key not in runs:
        runs[key] = motesim.run(path, *given, **mark.kwargs)
    return runs[key]
