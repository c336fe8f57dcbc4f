"""Scenarios made small: that the result still fails in the same way, that no further step is possible, that sentences
follow motes with other numbers, and that an interrupt ends it. What the command says is in sessions/shrink.toml."""
import signal
import subprocess
import sys
import tomllib
from pathlib import Path
from typing import Any

import pytest
from claim_judge import deciding_by
from here import HOLDS, SECONDS, TOOLS, TOP, text_of
from motesim.faults import Fault
from motesim.judge.finder import Finder
from motesim.judge.names import Names, names_of
from motesim.judge.sentences import motes_named, read_sentence
from motesim.judge.verdicts import breaks
from motesim.notation.printer import program_text
from motesim.notation.reader import read_program
from motesim.report.report import Report
from motesim.report.run import answer, program_path
from motesim.runner import Runner
from motesim.runner.programs import IN_NODE
from motesim.scenario.fault_text import read_faults
from motesim.scenario.scenario import Scenario
from motesim.surveys.following import follow
from motesim.surveys.net import loss_steps, mote_steps, net_of, number_steps, parts, program_steps, without_motes
from motesim.surveys.searching import LIMITS
from motesim.surveys.shrink import Case, Shrinking
from motesim.surveys.shrink_command import STOPPED
from motesim.surveys.smaller import smaller_numbers, without_process
from motesim.causes.cause import Cause, cause_of
from motesim.causes.source import Source
from sessions import TABLES, Table
from skips import need_built

TABLE = Table(TABLES / 'shrink.toml')
DIAMOND, ALL = TABLE.texts['diamond'], TABLE.texts['all']
REACHED, SILENT = 'mote 3 prints flood 7', read_faults(['mote 0 is silent'])
NAMES = Names(('flood',), 10)


def diamond_of(program: str) -> str:
    return DIAMOND.replace(TABLE.texts['program'], program)


# Parts of a scenario, and what can be left out.

def test_each_form_is_kept_and_examples_run_as_before() -> None:
    assert program_text(read_program(ALL)) == ALL
    need_built()
    for path in sorted((TOP / 'examples').glob('*.toml')):
        if path.name != 'wrong.toml' and 'mote' in tomllib.loads(path.read_text()):
            net = net_of(Scenario.parse(path.read_text()))
            assert answer(net.text.encode()).report == answer(path.read_bytes()).report, path


def test_smaller_numbers_and_parts() -> None:
    assert [list(smaller_numbers(it)) for it in (0, 1, 9)] == [[], [0], [0, 5, 7, 8]]
    assert [list(parts(it)) for it in (0, 3)] == [[], [(0, 3), (0, 1), (1, 2), (2, 3)]]


def test_a_process_goes_with_all_that_names_it() -> None:
    net = net_of(Scenario.parse(diamond_of(ALL)))
    text = program_text(without_process(net.programs[0][1], 'b'))
    assert 'process a;\nautostart a;\ncode a {' in text and 'if (0 && 0) {' in text
    assert not any(word + ' ' in text for word in ('receiver', 'post', 'synch', 'poll b'))


@pytest.mark.parametrize('removed, wanted', [
    ([], ['65 130', '0 195', '0 195', '65 130']), ([0], ['195', '195', '65 130']), ([0, 2], ['195', '65']),
    ([3], ['65 130', '0', '0'])])
def test_motes_that_stay_keep_the_numbers_that_programs_see(removed: list[int], wanted: list[str]) -> None:
    need_built()
    less = net_of(Scenario.parse(diamond_of(
        'process p;\nautostart p;\nreceiver p;\ncode p { etimer t; body { set t (1 + (self * 5)); while 1 { yield; if '
        'fired(t) { send (64 * self); } if is(packet) { print (from + data); } } } }\n')))
    for before, mote in enumerate(removed):
        less = without_motes(less, frozenset((mote - before,)))
    report = Report.parse(answer(less.text.encode()).report)
    assert [' '.join(str(it.value) for it in mote.lines if it.kind == 'print') for mote in report.motes] == wanted


# Sentences follow motes with other numbers.

def test_places_of_motes() -> None:
    assert motes_named('motes 1, 3 and 5 print flood 2 by 60', NAMES) == [(6, 1), (9, 3), (15, 5)]
    assert motes_named('every mote prints flood 3', NAMES) == []


@pytest.mark.parametrize('sentence, removed, wanted', [
    ('mote 6 prints flood 1 by 60', {1, 2}, 'mote 4 prints flood 1 by 60'), ('mote 6 prints flood 1', {6}, None),
    ('every mote but 0 prints flood 9', {9}, 'every mote but 0 prints flood 9'),
    ('every mote but 3 prints flood 1 at 40 plus 3 for each hop from mote 9', {1},
     'every mote but 2 prints flood 1 at 40 plus 3 for each hop from mote 8'),
    ('motes 3 to 7 send', {3, 4, 9}, 'motes 3 to 5 send'), ('motes 3 to 4 send', {3, 4}, None),
    ('motes 1, 3 and 5 print flood', {3}, None),
    ('mote 2 receives 7 from mote 5', {3}, 'mote 2 receives 7 from mote 4')])
def test_numbers_follow(sentence: str, removed: set[int], wanted: str | None) -> None:
    assert follow(sentence, NAMES, frozenset(removed)) == wanted


# What is left.

@pytest.fixture
def program() -> Runner:
    need_built()
    return Runner(program_path(), LIMITS)


def way(text: str, sentence: str, *faults: str) -> Any:
    """Whether a scenario breaks a sentence, by the judge of the tests: whether no line shows it, and the report's
    length."""
    found = Runner(faults=faults).answer(text.encode())
    if found.status:
        return None
    scenario = Scenario.parse(text)
    try:
        with deciding_by(found.report.decode()):
            broken, = breaks([read_sentence(sentence, names_of(scenario))],
                             Finder(Report.parse(found.report), scenario))
    except Fault:
        return None
    return broken and (broken.row is None, len(found.report))


def test_no_single_step_more_is_possible(program: Runner) -> None:
    # Both ways of the diamond are cut, in a net that has two motes more; mote 3 hears nothing.
    text = DIAMOND + ''.join('[[mote]]\nx = %d\ny = 40\nprogram = "p"\n' % (5 * it) for it in (0, 1))
    text += ''.join('[[loss]]\nfrom = %d\nto = %d\nevery = 1\n' % it for it in ((0, 1), (2, 3), (3, 2)))
    shrinking = Shrinking(program, Case(net_of(Scenario.parse(text)), REACHED, (), ('mote 2 prints flood 7',)))
    shrinking.run()
    net, (sentence, kept) = shrinking.case.net, (shrinking.case.sentence, *shrinking.case.keeps)
    # Motes 0, 2 and 3 are named or needed, and mote 3 has only to be out of reach.
    assert (len(net.motes), sentence, kept) == (3, 'mote 2 prints flood 7', 'mote 1 prints flood 7')
    assert way(net.text, kept) is None and way(net.text, sentence)[0]
    first, names, tried = way(text, REACHED), names_of(Scenario.parse(net.text)), 0
    for step in (it for steps in (mote_steps, loss_steps, program_steps, number_steps) for it in steps(net)):
        tried += 1
        its, other = (follow(it, names, step.removed) for it in (sentence, kept))
        if its is not None and other is not None:
            found = way(step.net.text, its)
            is_kept = answer(step.net.text.encode()).status == 0 and way(step.net.text, other) is None
            assert not (found and is_kept and found[0] == first[0] and found[1] <= first[1]), step.net.text
    assert tried > 10


def test_faults_stay_what_breaks_it(program: Runner) -> None:
    # Without the fault the message arrives, with it it doesn't, in the small scenario too.
    more = Scenario.parse(DIAMOND + '[[mote]]\nx = 18\ny = 6\nprogram = "p"\n')
    shrinking = Shrinking(program, Case(net_of(more), REACHED, (*SILENT, *read_faults(['mote 4 is silent']))))
    shrinking.run()
    case = shrinking.case
    assert way(case.net.text, case.sentence) is None
    assert way(case.net.text, case.sentence, 'mote 0 is silent') is not None
    assert (len(case.net.motes), [*case.faults]) == (2, SILENT)


def test_lines_that_are_only_late_are_not_missing(program: Runner) -> None:
    own = 'process p;\nautostart p;\ncode p { etimer t; body { set t 50; yield_until fired(t); %s } }\n'
    texts = [diamond_of(own % it) for it in ('if (self == 0) { print 1; }', 'print 1;')]
    shrinking = Shrinking(program, Case(net_of(Scenario.parse(texts[0])), 'mote 1 prints'))
    for text, end, is_same in (texts[0], 10, True), (texts[1], 10, False), (texts[1], 49, False):
        case = Case(net_of(Scenario.parse(text)), 'mote 1 prints')
        assert (shrinking.way_now(case._replace(net=case.net._replace(end=end))) == shrinking.way) == is_same


def test_another_cause_is_told() -> None:
    """A lost packet, or a condition: the sentence is broken in one way for two causes."""
    need_built()

    def cause(text: str) -> Cause:
        return cause_of(Source('test', Report.parse(answer(text.encode()).report), Scenario.parse(text)), REACHED)
    lost = cause(DIAMOND + ''.join('[[loss]]\nfrom = %d\nto = 3\nevery = 1\n' % it for it in (1, 2)))
    never = cause(DIAMOND.replace('if !known', 'if (!known && (self < 3))'))
    assert [*lost.kinds, *never.kinds] == ['lost', 'condition']
    assert never.differs(lost) and not lost.differs(lost) and not cause(DIAMOND).differs(cause(DIAMOND))


# The command.

@pytest.fixture
def folder(tmp_path: Path) -> Path:
    need_built()
    TABLE.write(tmp_path, TABLE.files)
    return tmp_path


SLOW = '#!/bin/sh\n[ -e hang ] && ' + HOLDS + '\nexec %s "$@"\n'
# (the first run after so many steps ends only by the interrupt)
HANGING = text_of('hanging.py.txt')
# (an exception in this call would be ignored)
LATE = text_of('late_import.py.txt')


@pytest.mark.parametrize('before, is_written', [(HANGING % 0, False), (HANGING % 1, True), (LATE, False)])
def test_an_interrupt_ends_it_at_once_and_writes_the_smallest_scenario_so_far(folder: Path, before: str,
                                                                              is_written: bool) -> None:
    (folder / 'slow').write_text(SLOW % program_path())
    (folder / 'slow').chmod(0o755)
    source = ('import sys\nsys.path.insert(0, %r)\nimport motesim.progress\nmotesim.progress.ELSEWHERE = %d\n'
              '%sfrom motesim.commands.shrink import main\nmain()\n') % (str(TOOLS), SECONDS, before)
    with subprocess.Popen([sys.executable, '-B', '-c', source, 'diamond.toml', REACHED, '--fault', 'mote 0 is silent',
                           '--seconds', '600'],
                          cwd=folder, stdin=subprocess.PIPE, stdout=subprocess.PIPE, stderr=subprocess.PIPE,
                          text=True) as running:
        assert running.stdout
        while running.stdout.readline() not in ('', 'now\n'):
            pass
        running.send_signal(signal.SIGINT)
        said, seen = running.communicate(timeout=SECONDS)
    # (without a compiled motecheck a line says that node runs its module)
    seen = ''.join(it for it in seen.splitlines(True) if not it.endswith(IN_NODE + '\n'))
    assert (running.returncode, (folder / 'diamond.small.toml').exists()) == (130, is_written), seen
    assert ('1 steps' in said and 'STOPPED' in said
            and not seen) if is_written else seen == 'shrink: %s\n' % STOPPED, seen
