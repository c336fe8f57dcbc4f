"""Searches for faults: which sets are found, what they cut off, and the fate of limits, interrupts and hostile
programs. What the command says is in sessions/search.toml, and test_survey compares the sets with those of a brute
force."""
import contextlib
import itertools
import json
import os
import signal
import subprocess
import sys
import tempfile
from collections.abc import Iterator, Sequence
from pathlib import Path
from typing import Any
from unittest import mock

import pytest
from here import HOLDS, SECONDS, TOOLS, call, until
from motesim.faults import Fault
from motesim.judge.expectations import beside
from motesim.report.run import program_path
from motesim.runner.programs import CHECKER
from motesim.scenario import Scenario
from motesim.surveys.cuts import Cuts, broken_by
from motesim.surveys.searching import LIMITS, MOST_MEASURED, Asked, found_in, search_of
from motesim.surveys.survey import Bounds, Survey, minimal, read_survey
from sessions import TABLES, Table
from skips import need_built

TABLE = Table(TABLES / 'search.toml')
DIAMOND = TABLE.texts['diamond']
REACHED = 'mote 3 prints flood 7'
LINE = DIAMOND.replace('x = 12\ny = 0', 'x = 18\ny = 18').replace('x = 6\ny = -6', 'x = 12\ny = 12')
STAR = DIAMOND.replace('x = 6\ny = 6', 'x = 0\ny = 10').replace('x = 6\ny = -6', 'x = 10\ny = 0').replace(
    'x = 12\ny = 0', 'x = -10\ny = 0')


@contextlib.contextmanager
def folder_with(text: str = DIAMOND, sentences: Sequence[object] = (REACHED,)) -> Iterator[Path]:
    with tempfile.TemporaryDirectory() as folder:
        path = Path(folder, 'diamond.toml')
        path.write_text(text)
        beside(path).write_text('expect = %s\n' % json.dumps(list(sentences)))
        yield Path(folder)


def search(folder: str | Path, *words: str) -> tuple[int, str, str]:
    done = call('search', 'diamond.toml', *words, cwd=folder)
    return done.returncode, done.stdout, done.stderr


def sets_of(text: str, *sentences: str, **asked: Any) -> dict[str, set[frozenset[str]]]:
    """The smallest sets that break each sentence."""
    found = search_of(Asked(Scenario.parse(text), sentences, **asked)).found
    return {text: {frozenset(it.faults) for it in found if text in it.expectations} for text in sentences}


def test_minimal_sets_worked_out_by_hand() -> None:
    """The message takes 0-1-3 or 0-2-3, so one link of each way has to fail."""
    need_built()
    pairs = [{one, other} for one in ((0, 1), (1, 3)) for other in ((0, 2), (2, 3))]
    found = sets_of(DIAMOND, REACHED, 'mote 0 sends', kinds={'links': ''}, bounds=Bounds(3))
    assert found == {REACHED: {frozenset('link %d to %d is broken' % it for it in pair) for pair in pairs},
                     'mote 0 sends': set()}


def test_an_expectation_is_broken_by_the_smallest_sets_of_all_its_claims() -> None:
    # (it has a claim for each interval: mote 0 sends at 10, and motes 1 and 2 at 12)
    need_built()
    both = 'at least 1 mote sends in each 12 from 0 to 23'
    assert sets_of(DIAMOND, both, kinds={'silent': '', 'links': ''}, bounds=Bounds(2))[both] == {
        frozenset(it) for it in (['mote 0 is silent'], ['link 0 to 1 is broken', 'link 0 to 2 is broken'])}
    assert minimal([('a', 'b'), ('b',), ('b', 'a'), ('c', 'a'), ('c', 'a', 'd')]) == [('b',), ('c', 'a')]


def test_the_lost_join_is_found_in_the_first_second() -> None:
    """Mote 1 sends JOIN once, and never repeats it."""
    need_built()
    join = DIAMOND.replace(TABLE.texts['program'],
                           'process p;\nautostart p;\nreceiver p;\ncode p { etimer t; body { if '
                           '(self == 1) { set t 9; yield_until fired(t); send 5; } while 1 { yield_until is(packet); '
                           'if (self == 0) { print data; } } } }\n')
    result = search_of(Asked(Scenario.parse(join), ['mote 0 prints p 5'], {'lost': ''}))
    assert [it.faults for it in result.found] == [('packet 0 of mote 1 is lost on the way to mote 0',)]
    assert result.found[0].measured and result.found[0].measured.moments == [9] and result.seconds < SECONDS


def test_what_a_survey_tells_is_read() -> None:
    lines = ['holds: a', 'broken: b', '  if nothing is broken', 'broken: c', '  if mote 1 is silent',
             '  if link 1 to 2 is broken and mote 3 is silent']
    for last, wanted in {
            'covered: all sets of at most 2 of 40 faults; runs: 821': (2, True, 40, 821),
            'covered: all sets of at most 2 faults; runs: 5': (2, True, None, 5),
            'covered: all sets of at most 0 faults before the limit; runs: 1': (0, False, None, 1),
            'covered: nothing before the limit; runs: 0': (-1, False, None, 0)}.items():
        assert read_survey([*lines, last]) == Survey([[], [()], [
            ('mote 1 is silent',), ('link 1 to 2 is broken', 'mote 3 is silent')]], *wanted, last)
    with pytest.raises(Fault, match='the last line of motecheck'):
        read_survey(lines)


def test_of_many_sets_only_some_are_measured() -> None:
    need_built()
    with mock.patch('motesim.surveys.searching.MOST_MEASURED', 2), folder_with() as folder:
        status, said, _ = search(folder, '--links', '--at-most', '2')
        assert status == 1 and '2 counter-examples are in' in said and said.count('link 0 to') == 4
        assert len([*(folder / 'diamond.search').glob('*.faults')]) == 2
    assert MOST_MEASURED > 2 and found_in({'a': [('x',)], 'b': [('x',), ('y', 'z')]})[0].expectations == ['a', 'b']


def test_a_cut_has_each_way_that_no_path_replaces() -> None:
    for text in DIAMOND, LINE, STAR:
        scenario = Scenario.parse(text)
        cuts, motes = Cuts(scenario, LIMITS), range(4)
        faults = ['mote %d is silent' % it for it in motes] + [
            'link %d to %d is broken' % (s, r) for s in motes for r in scenario.hearers(s)]
        for pair in itertools.combinations(faults, 2):
            broken = broken_by(pair, scenario)
            # (the same net with these losses)
            other = Scenario.parse(text + ''.join('[[loss]]\nfrom = %d\nto = %d\nevery = 1\n' % it for it in broken))
            assert [cuts.reached(it, broken) for it in motes] == [{*other.hops_from(it)} for it in motes]


# Limits, and ends by a signal.

def test_a_run_that_reaches_a_limit_has_no_file() -> None:
    """A mote that misses the message prints 3,000 lines at each of a thousand moments."""
    need_built()
    loud = ('loud = "process flood; autostart flood; receiver flood; code flood { var n = 0; etimer t; body { set t '
            '30; yield; if is(packet) { print data; } else { while 1 { n = 0; while (n < 3000) { print 1; n = (n + '
            '1); } set t 1; yield_until fired(t); } } } }"\n')
    head, *motes = DIAMOND.replace('end = 100', 'end = 1000').split('[[mote]]')
    motes[3] = motes[3].replace('"p"', '"loud"')
    with folder_with('[[mote]]'.join([head + loud, *motes])) as folder:
        status, said, seen = search(folder, '--silent', '--report', '1')
        assert (status, seen) == (1, '') and 'mote 0 is silent' in said and '0 counter-examples' in said, said


def test_an_interrupt_leaves_what_was_covered_before() -> None:
    need_built()
    with folder_with() as folder:
        # (the survey of pairs waits until the search is asked to stop)
        program = folder / 'holding'
        program.write_text('#!/bin/sh\ncase "$*" in *--at-most=2*) : >held; %s ;; esac\nexec %s "$@"\n' % (
            HOLDS, program_path(CHECKER)))
        program.chmod(0o755)
        with mock.patch.dict(os.environ, MOTECHECK=str(program)):
            words = 'diamond.toml', '--links', '--at-most', '2'
            with subprocess.Popen([sys.executable, '-B', str(TOOLS / 'search'), *words], cwd=folder,
                                   stdout=subprocess.PIPE, stderr=subprocess.PIPE, text=True) as begun:
                assert until(lambda: (folder / 'held').exists() or begun.poll() is not None)
                begun.send_signal(signal.SIGINT)
                said, seen = begun.communicate(timeout=SECONDS)
        assert begun.returncode == 130, seen
        assert 'covered: all sets of at most 1 of 8 faults; runs: 9' in said
        assert 'NOT ALL WAS TRIED: it was stopped' in said
