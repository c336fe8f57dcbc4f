"""Tests of examples/news.toml with pytest, as a pattern for your own:

    PYTHONPATH=tools python3 -m pytest -p motesim.api.fixture examples/test_news.py
"""
from pathlib import Path

import pytest

import motesim

# The scenario or plan of the fixture `run`, next to this file.
pytestmark = pytest.mark.scenario('news.toml')


def test_each_mote_prints_the_news_once(run: motesim.Run) -> None:
    for number in range(1, 9):
        assert run.mote(number).prints('just news 7')


def test_no_mote_sends_twice(run: motesim.Run) -> None:
    assert run.expect('every mote sends at most once')
    assert not run.mote(3).halts()


def test_the_news_reach_the_last_mote_over_two_hops(run: motesim.Run) -> None:
    moments = [next(it.at for it in run.report.motes[mote].lines if it.kind == 'print') for mote in (1, 8)]
    assert moments == [25, 60]
    assert motesim.why(run, 'mote 8 prints news 7').endswith('over 2 hops')


@pytest.mark.scenario('news.toml', faults=['link 1 to 2 is broken', 'link 4 to 2 is broken'])
def test_mote_2_does_not_get_the_news_without_its_two_links(run: motesim.Run) -> None:
    assert run.mote(5).prints('news')
    assert not run.mote(2).prints('news')


def test_no_single_broken_link_stops_the_news() -> None:
    assert motesim.search(Path(__file__).with_name('news.toml'), 'every mote but 0 prints news 7', links=True)
