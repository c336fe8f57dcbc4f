"""The chronological log. What is expected comes from the report's lines, put in order by Python's own sort. What the
command says is in sessions/log.toml."""
import pytest
from here import TOP, text_of
from motesim.faults import Fault
from motesim.report import Report
from motesim.report.run import answer
from motesim.scenario import Scenario
from motesim.causes.log import Filter, kinds_of, numbers_of, of_sentence, rows_of
from motesim.causes.source import Source
from skips import need_built

# Both motes write lines at moment 2; the program of mote 0 has a process that is called `take`.
REPORT = text_of('log.report')


def test_the_order_is_by_moment_then_by_mote() -> None:
    report = Report.parse(REPORT)
    assert [*rows_of(report, Filter().lines(report))] == [
        (0, 0, 2, 'start take'), (1, 1, 8, 'start b'), (2, 0, 3, 'post 0 take msg 7'), (2, 0, 4, 'take 0 take'),
        (2, 0, 5, 'print take 3'), (2, 1, 9, 'print b 7'), (2, 1, 10, 'full b com 3'), (5, 0, 6, 'send 0 3'),
        (9, 1, 11, 'recv 0 0 3')]


@pytest.mark.parametrize('it, lines', [
    (Filter(motes=frozenset({1})), [8, 9, 10, 11]), (Filter(kinds=('print', 'recv')), [5, 9, 11]),
    (Filter(value=7), [3, 9]), (Filter(value=0), []),
    (Filter(span=(2, 5)), [3, 4, 5, 9, 10, 6]), (Filter(frozenset({0}), ('print', 'send'), 3, (0, 4)), [5])])
def test_filters(it: Filter, lines: list[int]) -> None:
    """Each filter with the lines of the report that it leaves."""
    report = Report.parse(REPORT)
    assert [row for _, _, row, _ in rows_of(report, it.lines(report))] == lines


def test_lists() -> None:
    assert numbers_of('3,5-7', 9, '--mote') == {3, 5, 6, 7}
    for text in '', 'a', '7-5', '3,', '10':
        with pytest.raises(Fault, match='is not a list of numbers from 0 to 9'):
            numbers_of(text, 9, '--mote')
    with pytest.raises(Fault, match="there are no lines 'sends'"):
        kinds_of('sends')


BY_HOPS = [(40, 0), (43, 1)]


@pytest.mark.parametrize('sentence, lines', [
    # (message 2 of flooding reaches motes 3 to 7 at 80 plus 3 for each hop, but for the loss from 0 to 1)
    ('motes 3 to 7 print flood 2 by 90', [(83, 5), (86, 6), (89, 7)]), ('exactly 1 copy is lost at mote 1', [(80, 0)]),
    # (each of the 25 motes sends message 1 at 40 plus 3 for each hop from mote 0)
    ('exactly 25 packets are sent at 40 plus 3 for each hop from mote 0', BY_HOPS),
    ('at least 1 copy arrives at 40 plus 3 for each hop from mote 0', BY_HOPS[1:])])
def test_sentences(sentence: str, lines: list[tuple[int, int]]) -> None:
    need_built()
    data = (TOP / 'examples/flooding.toml').read_bytes()
    source = Source('flooding', Report.parse(answer(data).report), Scenario.parse(data))
    trace, found = source.traces.report.trace, of_sentence(source, sentence, Filter())
    log = [(trace.at[it], trace.mote[it]) for it in found]
    assert log[:len(lines)] == lines and ('hop' in sentence or len(log) == len(lines))
    if 'packets' in sentence:
        assert sorted(mote for _, mote in log) == list(range(25))
