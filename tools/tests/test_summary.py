"""Flows and their work. The counts, and what the command says, are in sessions/summary.toml."""
from unittest import mock

import pytest
from here import text_of
from motesim.explain.of_nets import of_moments
from motesim.faults import Fault
from motesim.report import Report
from motesim.report.run import Run
from motesim.scenario import Scenario
from motesim.summary.columns import FLOWS, LINKS, MOTES
from motesim.summary.counts import summary
from motesim.summary.flows import flow_rows
from sessions import TABLES, Table

TEXTS = Table(TABLES / 'summary.toml').texts
REPORT = TEXTS['report']
SCENARIO = text_of('talkers.toml')
WITH_PROCESSES = SCENARIO.replace('talker = ""', 'talker = "process a, b; code a"').replace(
    'hearer = ""', 'hearer = "process hearer; // process no;"')


def test_the_tables_have_the_columns_that_the_help_and_the_page_describe() -> None:
    report, scenario = Report.parse(REPORT), Scenario.parse(SCENARIO)
    motes, net, links = summary(Run('small', report, scenario))
    for rows, columns in (([*motes, net], ['mote', 'program', *MOTES]), (links, [*LINKS]),
                          (flow_rows(report, None, 'print hearer'), [*FLOWS])):
        assert rows and all([*row] == columns for row in rows)


def test_packets_of_one_moment_have_a_warning() -> None:
    [found] = of_moments(Report.parse(TEXTS['meeting']))
    assert (found.name, found.mote, dict(found.facts)) == ('same-moment', 0, {'packets': 2, 'at': 4})
    assert [*of_moments(Report.parse(REPORT))] == []


def test_the_net_is_searched_once_for_each_origin() -> None:
    """Mote 0 sends thirty messages, all heard by mote 1: one origin, so one search for its row and one for the net."""
    rows = {it: ''.join(it % ((at,) * it.count('%d')) for at in range(30)) for it in (
        '%d send %d %d\n', '4%d print hearer %d\n', '%d 0 %d %d 1@4%d\n')}
    report = Report.parse('mote 0 talker\n%smote 1 hearer\n%smedium\n%sleft 0\n' % (*rows.values(),))
    scenario = Scenario.parse(SCENARIO.replace('hearer = ""', 'hearer = "process hearer; code hearer { body { } }"'))
    with mock.patch.object(Scenario, 'hops_from', autospec=True, side_effect=Scenario.hops_from) as searched:
        found = flow_rows(report, scenario, 'print hearer')
    assert (found[0]['sent'], found[0]['copies'], searched.call_count) == (30, 30, 2)


@pytest.mark.parametrize('words, seen', [
    ('print haerer', 'did you mean hearer'), ('print xyz', 'it has: a, b, hearer'),
    ('print a -> print no', 'it has: a, b, hearer'),
    *((it, '') for it in ('print hearer', 'print b', 'print a -> print hearer', 'print radio', 'send -> recv',
                          'print talker'))])
def test_a_flow_of_a_process_that_the_scenario_lacks_is_refused(words: str, seen: str) -> None:
    scenario, report = Scenario.parse(WITH_PROCESSES), Report.parse(REPORT)
    if not seen:
        flow_rows(report, scenario, words)
        return
    with pytest.raises(Fault, match='no flow: the scenario has no process .*' + seen):
        flow_rows(report, scenario, words)
    talker = Report.parse(REPORT.replace('talker', 'a').replace('mote 0 a', 'mote 0 talker'))
    with pytest.raises(Fault, match='has no process talker; talker is a program, with: a, b$'):
        flow_rows(talker, scenario, 'print talker')
