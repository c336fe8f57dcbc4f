"""What came before a difference of two reports, and the differences of two scenarios. What the command says is in
sessions/compare.toml."""
import pytest
from here import rows_of
from motesim.comparison import reports as compare
from motesim.comparison import scenarios as scenario_differences
from motesim.comparison.scenarios import of_text
from motesim.report import Report
from motesim.scenario import Scenario
from sessions import TABLES, Table

TEXTS = Table(TABLES / 'compare.toml').texts
SCENARIO = TEXTS['scenario']


def test_what_came_before_has_packets_and_events() -> None:
    rows = ['%d send %d 0' % (at, at) for at in range(4)] + ['%d take %d p' % (at, at) for at in range(9, 15)]
    lines = Report.parse('mote 0 a\n%s\nmedium\nleft 0\n' % '\n'.join(rows)).motes[0].lines
    assert [line.at for line in compare.before(lines)] == [1, 2, 3, 11, 12, 13, 14]


@pytest.mark.parametrize('a, b, wanted',
                         [('x\ny\nz', 'x\nnew\ny\nz', '0 lines only in A, 1 only in B; the first is line 2'),
                                          ('x\ny\nz', 'z', '2 lines only in A, 0 only in B; the first is line 1'),
                                          ('x\ny', 'x\nw', 'differs in its line 2')])
def test_lines_of_programs_are_counted_as_diff_counts_them(a: str, b: str, wanted: str) -> None:
    assert wanted in next(of_text('p', a, b))


@pytest.mark.parametrize('changes, found', rows_of('scenario_differences.tsv'))
def test_each_part_of_a_scenario_is_told(changes: str, found: str) -> None:
    text = SCENARIO
    for old, new in (it.split(' => ') for it in changes.split(' | ')):
        assert old in text
        text = text.replace(old, new)
    a, b = Scenario.parse(SCENARIO), Scenario.parse(text)
    assert list(scenario_differences.differences(a, b)) == found.split(' | ')
    assert scenario_differences.in_words(a, a, 5) == ['The scenarios are the same.']
    if len(found.split(' | ')) > 2:
        assert len(scenario_differences.in_words(a, b, 1)) == 3
