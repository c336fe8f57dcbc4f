"""The causes of lines that tools/why reports. The chains are worked out by hand from the scenarios of
sessions/why.toml, which also has what the command says."""
import re
from functools import cache

import pytest
from claim_judge import deciding_by
from here import TOP, rows_of, scenario_of, work_of
from motesim.faults import Fault
from motesim.replay.mote import Parted
from motesim.report import Report
from motesim.report.run import answer
from motesim.scenario import Scenario
from motesim.scenario.in_programs import ScenarioFile
from motesim.causes.chain import cause_of, chain, places
from motesim.causes.command import rows_of_asked
from motesim.causes.fate import after_post
from motesim.causes.miss import Miss, _Misses, misses
from motesim.causes.question import Asked, Asker, Missing
from motesim.causes.say import MOST_CALLS, Reasons, about, because, chain_as_json, of_fate, of_miss, on_values, words_of
from motesim.causes.source import At, Source
from motesim.causes.state import after_moment
from motesim.causes.watch import read_watch, replayed
from project.differential.random_scenario import random_scenario
from sessions import TABLES, Table
from skips import need_built

TEXTS = Table(TABLES / 'why.toml').texts
SCENARIO, REPORT = TEXTS['called_at_once'], TEXTS['report']
HEAD = -1


def source(scenario: str = SCENARIO, report: str = REPORT) -> Source:
    return Source('test', Report.parse(report), Scenario.parse(scenario))


@cache
def run_of(scenario: str) -> Source:
    """The run of a scenario by the built program: one of the table, or of an example, or the text itself."""
    if scenario == 'report':
        return source()
    need_built()
    path = TOP / 'examples' / (scenario + '.toml')
    text = TEXTS.get(scenario) or (scenario if '\n' in scenario else path.read_text('utf-8'))
    return Source('test', Report.parse(answer(text.encode()).report), Scenario.parse(text))


def because_of(source: Source, where: At) -> str:
    return because(source, chain(source, where)[0])


def asked_of(source: Source, question: str) -> Asked:
    found = Asker(source).about(question)
    assert isinstance(found, Asked)
    return found


def missing_of(source: Source, question: str) -> tuple[Missing, list[Miss]]:
    asker = Asker(source)
    found = asker.about(question)
    assert isinstance(found, Missing)
    return found, [it for _, its in misses(asker, found) for it in its]


# The cause of each line, by what the kernel does.

@pytest.mark.parametrize('mote, place, why', rows_of('why_causes.tsv'))
def test_calls_without_a_line_and_ends_are_named(mote: str, place: str, why: str) -> None:
    assert because_of(source(), At(int(mote), int(place))) == why


@pytest.mark.parametrize('example, question, led', [
    ('flooding', 'mote 6 prints flood 1', ', in line 20: `if (is(packet) && (data > newest))`'),
    ('flooding', 'mote 0 sends 1', ', in line 13: `if fired(next)`')])
def test_the_if_that_led_to_a_statement(example: str, question: str, led: str) -> None:
    run = run_of(example)
    assert because_of(run, asked_of(run, question).where).endswith(led)


def test_an_event_for_a_process_that_is_not_on_the_process_list() -> None:
    left = source(report=REPORT.replace('7 take 0 h', '7 drop 0 h'))
    assert of_fate(left,
                   after_post(left, At(1, 5))) == 'its event was dropped at 7, because h was not on the process list'
    assert because_of(run_of('broadcast'), At(0, 10)) == 'event 0 was dropped: b was not on the process list'


def test_what_another_program_wrote_or_nobody_sent_is_refused() -> None:
    with pytest.raises(Parted, match="line 13 of it should be '4 send 0 9', but there is '4 send 0 8'"):
        chain(source(SCENARIO.replace('send 8', 'send 9')), At(0, 12))
    with pytest.raises(Fault, match='a packet that was never sent: packet 3 of mote 0'):
        chain(source(report=REPORT.replace('7 recv 0 0 8', '7 recv 0 3 8')), At(1, 7))


def test_the_packet_of_a_value_that_was_stored() -> None:
    """Mote 1 stores a value, and sends it when a timer from its start is due."""
    run = run_of('stored')
    remarks = [on_values(run, chain(run, it)) for it in (At(2, 7), At(1, 9), At(2, 4))]
    assert len({*remarks}) == 1 and 'the value 7 before, in packet 0 of mote 0 at 12.' in remarks[0]
    assert remarks[0].endswith('ask about line 17.') and run.traces.row(At(1, 4)) == 17
    assert rows_of_asked(run, asked_of(run, 'mote 2 prints node 7'))[-1] == remarks[0]
    # The chain of mote 1's packet has the packet of the value; and mote 0 made the value.
    assert not any(on_values(run, chain(run, it)) for it in (At(1, 4), At(0, 6), At(1, 7), At(1, HEAD)))


@pytest.mark.parametrize('changes', [{' receiver node;': '', 'set t 20': 'last = 7; set t 20'},
                                     {'last = 7': 'last = 6', 'send last': 'send (last + self)'}])
def test_a_packet_that_no_process_took_or_with_another_value_is_not_named(changes: dict[str, str]) -> None:
    """Mote 1 has no receiver, and makes the value itself; or it adds its number to the value 6."""
    text = TEXTS['stored']
    for old, new in changes.items():
        text = text.replace(old, new)
    run = run_of(text)
    assert on_values(run, chain(run, At(1, run.traces.texts(1).index('20 send 0 7')))) == ''


# Next to the line of a program is the line of the scenario's file.

TWO = 'process a;\ncode a {}'


@pytest.mark.parametrize('rows, program, above', [
    ('p = "process a;"\n', 'process a;', 1), ("p = '''%s'''\n" % TWO, TWO, 1),
    ("o = '''\nx'''\np = '''\nprocess a;\n'''\n", 'process a;\n', 4), ('p = "process a;\\ncode a {}"\n', TWO, None)])
def test_where_the_text_of_a_program_begins(rows: str, program: str, above: int | None) -> None:
    """None: it isn't in the file line by line."""
    found = ScenarioFile('a.toml', '[programs]\n' + rows).place('p', program)
    assert (found and found.above) == above


def test_reasons_and_json_have_both_lines() -> None:
    """The program begins on line 9 of the file, so its line 8 is line 16 of the file; or it is in no such file."""
    found = Source('test', Report.parse(REPORT), Scenario.parse(SCENARIO), ScenarioFile('a.toml', SCENARIO))
    hops = chain(found, At(0, 7))
    first = chain_as_json(found, hops)['chain'][0]
    assert because(found, hops[0]) == 'a, line 8 (a.toml:16): `post b msg 5`'
    assert (first['program_line'], first['file'], first['file_line']) == (8, 'a.toml', 16)
    other = ScenarioFile('b.mote', 'process x;\ncode x { body { print 1; } }\n')
    assert because_of(Source('test', Report.parse(REPORT), Scenario.parse(SCENARIO), other),
                      At(0, 7)) == 'a, line 8 of program talker: `post b msg 5`'


# Which line a question is about.

@pytest.mark.parametrize('question, kind, found', rows_of('why_questions.tsv'))
def test_the_line_of_a_question(question: str, kind: str, found: str) -> None:
    if kind == 'refused':
        with pytest.raises(Fault, match=found):
            Asker(source()).about(question)
    elif kind == 'missing':
        missing_of(source(), question)
    else:
        asked = asked_of(source(), question)
        assert (asked.where, asked.holds) == (At(*map(int, found.split())), kind != 'broken')


@pytest.mark.parametrize('question, line, holds, remark', [
    ('mote 3 sends after mote 0 sends', '3: 49 send 0 1', True, ''),
    ('every mote but 0 prints flood within 0 of receiving', '24: 64 print flood 1', True, 'mote 24 is the last'),
    ('some mote prints flood 2', '5: 83 print flood 2', True, ''),
    ('mote 0 sends after mote 3 sends', '0: 40 send 0 1', False,
     'every line "send" is after some line "send" of mote 3'),
    ('mote 3 sends at least once as often as mote 2', '3: 49 send 0 1', True, ''),
    ('mote 3 sends more than 2 times as often as mote 2', '3: 129 send 2 3', False, 'but there are 3 and 3')])
def test_sentences_on_two_events(question: str, line: str, holds: bool, remark: str) -> None:
    run = run_of('flooding')
    asked = asked_of(run, question)
    at = places(run, asked.where)[0]
    assert ('%d: %s' % (at.mote, run.traces.text(at)), asked.holds, remark in about(run, asked)) == (line, holds, True)


@pytest.mark.parametrize('example, question, mote', [
    ('flooding', 'mote 3 prints flood 9 after mote 0 sends', 3),
    ('flooding', 'some mote prints flood 9 after mote 0 sends', 0),
    ('lesson/start', 'every mote but 0 prints hops within 0 of receiving', 3),
    ('lesson/start', 'motes 1, 2 and 5 print hops after receiving', 5),
    ('lesson/start', 'motes 1 to 3 print hops 1 at least once within 0 of receiving', 3)])
def test_the_first_mote_that_misses_an_order_has_near_misses(example: str, question: str, mote: int) -> None:
    missing, found = missing_of(run_of(example), question)
    assert missing.motes == (mote,) and found
    assert example == 'flooding' or any(it.kind == 'reached' for it in found)


def test_a_lost_copy_has_the_reason_of_its_loss() -> None:
    # (the report is that of no run)
    report = REPORT[:REPORT.index('7 recv')] + 'medium\n4 0 0 8 1@lost\nleft 0\n'
    lossy = source(SCENARIO + '[[loss]]\nfrom = 0\nto = 1\nevery = 3\n', report)
    for question in 'no copy is lost', 'some copy is lost at mote 1':
        with deciding_by(report):
            asked = asked_of(lossy, question)
        assert asked.where == At(0, 12) and 'it loses one packet in 3 from 0 to 1' in about(lossy, asked)


# Near misses of a line that isn't there.

@pytest.mark.parametrize('run, question, kinds, row', rows_of('why_misses.tsv'))
def test_near_misses(run: str, question: str, kinds: str, row: str) -> None:
    _, found = missing_of(run_of(run), question)
    assert (' '.join(it.kind for it in found), found[0].row if found else 0) == (kinds, int(row))


def test_the_words_of_near_misses() -> None:
    never = source(SCENARIO.replace('    yield_until is(packet);\n    print data;',
                                    '    while 1 {\n      yield;\n      if (data > 8) {\n        print data;\n'
                                    '      }\n    }'),
                   REPORT.replace('7 print h 8\n7 leave h\n', ''))
    for run, question, words in (
            (source(), 'mote 1 prints h 8 by 6',
             '`print h 8`, at 7: 1 moment too late, because the expectation allows up to 6'),
            (never, 'mote 1 prints h 9',
             'line 9: `print data` was never reached; line 8: `if (data > 8)` was tested once, and '
             'was never true, the last time, at 7'),
            (run_of('called'), 'mote 0 prints worker 1',
             'worker has waited at line 28: `yield_until is(go)` from 0; its '
             'condition was tested once in this time, and was never true')):
        assert words in [of_miss(run, it) for it in missing_of(run, question)[1]]


def test_many_collisions() -> None:
    """Six thousand packets that meet at one mote are looked up in linear work: square work would need 20 s."""
    packets = range(6000)
    text = '\n'.join(['mote 0 talker', *('0 send %d 7' % it for it in packets), 'mote 1 hearer',
                      *('0 start %s' % it for it in ('etimer', 'ctimer', 'radio', 'h')),
                      *('4 collide 0 %d' % it for it in packets), 'medium',
                      *('0 0 %d 7 1@4' % it for it in packets), 'left 0\n'])
    found, words = source(report=text), list[str]()
    assert work_of(lambda: words.extend(of_miss(found, it) for it in missing_of(found, 'mote 1 prints h 7')[1])) < 120
    assert any('packet 5999 of mote 0' in it and 'with 5999 other packets' in it for it in words)
    assert '5999 other packets' in Reasons(found, 1).of_copy(4)


def test_many_polls() -> None:
    """A process that polls itself has as many calls without a line as polls: the reasons name a few of them."""
    program = 'process p; autostart p; code p { body { poll p; while 1 { yield_until is(poll); poll p; send 1; } } }'
    head = SCENARIO[:SCENARIO.index('talker')] + 'talker = "%s"\n[[mote]]\nx = 0\ny = 0\nprogram = "talker"\n' % program
    starts = ['0 start %s' % it for it in ('etimer', 'ctimer', 'radio', 'p')]
    text = '\n'.join(['mote 0 talker', *starts, *('%d send %d 1' % (it // 64, it) for it in range(64 * 20)),
                      'medium', *('%d 0 %d 1' % (it // 64, it) for it in range(64 * 20)), 'left 0\n'])
    found = source(head.replace('end = 20', 'end = 19'), text)
    assert len(because_of(found, At(0, 1000)).split('; ')) == 1 + MOST_CALLS + 1
    assert because_of(found, At(0, 4)) == 'p, line 1: `send 1`; p was polled by p in line 1: `poll p`'


def test_lines_at_another_time_are_looked_up_in_linear_work() -> None:
    text = '\n'.join(['mote 0 talker', *('%d send %d 7' % (4 + it // 2000, it) for it in range(20_000)),
                      'mote 1 hearer', '0 start etimer', 'medium', 'left 0\n'])
    asker = Asker(source(report=text))
    missing = asker.about('mote 0 sends 7 by 3')
    assert isinstance(missing, Missing)
    found, misses = [], _Misses(asker, missing, 0)
    assert work_of(lambda: found.append(next(misses.found()))) < 60
    assert of_miss(asker.source, found[0]).startswith('`send 0 7`, at 4: 1 moment too late')


# The causes of lines that have a line of their own as their cause, in the words of the report.
CAUSES = (r'recv (?P<mote>\d+) (\d+) (\d+)', r'send \2 \3'), (
    r'(?:lost|collide) (?P<mote>\d+) (\d+)', r'send \2 \d+'), (
    r'(?:take|drop) (\d+) \w+', r'post \1 .*'), (r'deaf (\d+ \d+)', r'recv \1 .*'), (
    'start (?:etimer|ctimer|radio)', r'mote \d+ .*'), ('.*', '(?:start|take|recv|mote) .*')


def has_cause(line: str, cause: str) -> bool:
    """Returns whether a line may have a cause, by the table of DEBUGGING."""
    form, wanted = next(it for it in CAUSES if re.fullmatch(it[0], line))
    found = re.fullmatch(form, line)
    return found is not None and re.fullmatch(found.expand(wanted.replace(r'\d', '[0-9]').replace(r'\w', '[a-z]')),
                                              cause) is not None


def test_each_line_has_one_cause_that_is_earlier() -> None:
    """On all examples and cases, and on random scenarios, back to the start of a mote."""
    need_built()
    lines = 0
    files = sorted([*TOP.glob('examples/*.toml'), *TOP.glob('tests/cases/*/*.toml')])
    for data in [*(it.read_bytes() for it in files), *map(random_scenario, range(20))]:
        got = answer(data)
        if got.status:
            continue
        found = Source('test', Report.parse(got.report), Scenario.parse(data))
        traces, steps = found.traces, dict[At, int]()
        everything = [At(mote, place) for mote in range(traces.motes) for place in range(len(traces.lines(mote)))]
        for at in sorted(everything, key=lambda at: (traces.moment(at), at)):
            cause = cause_of(found, at)
            assert cause is not None
            assert has_cause(traces.text(at).partition(' ')[2], words_of(found, cause)), (at, cause)
            assert cause.mote == at.mote and cause.place < at.place or traces.moment(cause) < traces.moment(at), at
            assert traces.moment(cause) <= traces.moment(at)
            # (a line of another mote is earlier by a moment at least, so its cause is known here)
            steps[at] = 1 + (0 if cause.place < 0 else steps[cause])
        lines += len(everything)
    assert lines > 25_000


# Motes that boot again. Process p prints 1, and sends at 5 moments after its boot; the mote boots again at 3.

AGAIN = scenario_of('process p;\nautostart p;\ncode p {\n  var n = 0;\n  etimer t;\n  body {\n    n = (n + 1);\n    '
                    'print n;\n    send n;\n    set t 5;\n    yield_until fired(t);\n    send 7;\n'
                    '    while 1 { yield; }\n  }\n}\n')
LIFE = '{0} start etimer\n{0} start ctimer\n{0} start radio\n{0} start p\n{0} print p 1\n{0} send {1} 1\n'
TWICE = ('mote 0 p\n%s3 boots\n%s8 post 0 p timer 0\n8 take 0 p\n8 send 2 7\n'
         'medium\n0 0 0 1\n3 0 1 1\n8 0 2 7\nleft 0\n') % (LIFE.format(0, 0), LIFE.format(3, 1))


@pytest.mark.parametrize('fault', ['mote 0 restarts at 3', 'mote 0 is off from 1 to 3'])
def test_a_mote_that_boots_again(fault: str) -> None:
    scenario = Scenario.parse(AGAIN)
    scenario.faults = (fault,)
    run = Source('test', Report.parse(TWICE), scenario)
    hops = chain(run, At(0, 15))
    assert [words_of(run, it.where) for it in hops] == [
        'send 2 7', 'take 0 p', 'post 0 p timer 0', 'start p', 'boots', 'mote 0 p']
    assert [because(run, it) for it in hops[3:]] == ['in the list of autostart', fault, 'the start']
    assert [(it.at, it.value) for it in replayed(run, *read_watch(run, 'mote 0 n'))] == [(0, 0), (0, 1), (3, 0), (3, 1)]
    assert after_moment(run, 0, 4).replay.timers[0].due == 8 and after_moment(run, 0, 2).replay.timers[0].due == 5


def test_an_event_that_a_boot_forgets() -> None:
    run = Source('test', Report.parse(REPORT.replace('7 take 0 h\n', '7 boots\n').split('7 print h 8')[0] +
                                      'medium\n4 0 0 8 1@7\nleft 0\n'),
                 Scenario.parse(SCENARIO))
    assert of_fate(run, after_post(run, At(1, 5))) == 'mote 1 booted again at 7, before its event was taken'
