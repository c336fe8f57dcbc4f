"""The sentences that can be read, and the judgement of a report. What tools/expect says of files is in
sessions/expect.toml; test_page_judge.py has sentences by chance, and the verdicts of a second judge."""
import ast
import inspect
import os
import re
import subprocess
import unittest
from pathlib import Path
from unittest import mock

import pytest
from claim_judge import deciding_by
from here import TOP, call, rows_of
from motesim.faults import Fault
from motesim.judge import remarks, sentences
from motesim.judge.breaks import UnknownBreak, read_break
from motesim.judge.claims import Claims
from motesim.judge.expectations import expect, judged, parts_of
from motesim.judge.finder import Finder
from motesim.judge.reasons import Broken
from motesim.judge.meaning import Does, Value
from motesim.judge.names import Names, names_of
from motesim.judge.sentence_fault import EXAMPLES, SentenceFault
from motesim.judge.sentences import read_sentence
from motesim.judge.several import read_all, UnknownSentence
from motesim.judge.verdicts import breaks
from motesim.report import Report
from motesim.runner import Answer, programs
from motesim.scenario import Scenario
from motesim.scenario.fields import of_line, read_fields
from sessions import TABLES, Table
from stub import programs_of

TABLE = Table(TABLES / 'expect.toml')
SCENARIO, REPORT, RELAY = (TABLE.texts[it] for it in ('flood', 'flood_report', 'relay'))
FINDERS = {it: Finder(Report.parse(TABLE.texts[it + '_report']), Scenario.parse(TABLE.texts[it]))
           for it in ('flood', 'relay')}
NAMES = {it: names_of(finder.scenario) for it, finder in FINDERS.items()}


def broken_by(net: str, sentence: str) -> Broken | None:
    with deciding_by(TABLE.texts[net + '_report']):
        return breaks([read_sentence(sentence, NAMES[net])], FINDERS[net])[0]


def test_a_program_has_these_names() -> None:
    assert NAMES['flood'] == Names(('etimer', 'ctimer', 'radio', 'flood', 'hears'), 4, (('flood', 'hears'),) * 4)


@pytest.mark.parametrize('net, sentence, kind, row', rows_of('sentences.tsv'))
def test_what_holds_and_what_is_broken_by_which_line(net: str, sentence: str, kind: str, row: str) -> None:
    broken = broken_by(net, sentence)
    assert (broken.kind if broken else 'holds', broken and broken.row) == (kind, int(row) if row else None)


@pytest.mark.parametrize('net, sentence, word, wanted', rows_of('sentence_errors.tsv'))
def test_what_may_stand_is_told(net: str, sentence: str, word: str, wanted: str) -> None:
    with pytest.raises(SentenceFault) as caught:
        read_sentence(sentence, NAMES[net])
    fault = caught.value
    assert word in ('*', sentence[fault.place:].split(' ')[0])
    assert any(wanted in it for it in fault.wanted) or wanted in str(fault), fault.wanted


@pytest.mark.parametrize('sentence, why', [
    ('exactly 2 copies are left', 'not for the net: exactly 2 copies left at the end, but there is 1'),
    ('mote 1 prints a 1 by 12',
     'not for mote 1: at least 1 line "print process a value 1" from 0 to 12, but there are 0; '
     'the next is'),
    ('mote 1 prints a 1 before mote 0 sends 1',
     'not for mote 1: every line "print process a value 1" is before every line '
     '"send value 1" of mote 0; the first that isn\'t is'),
    ('mote 0 prints a its distance from mote 3', 'mote 0 is not reached from mote 3'),
    ('at least 3 motes print a',
     'fewer than 3 of 4 hold: not for mote 0: at least 1 line "print process a", but there are 0'),
    ('at most 1 mote prints a',
     'more than 1 of 4 hold: also for mote 2: at least 1 line "print process a"; the line that '
     'meets it is')])
def test_reasons_are_the_words_of_claims_with_what_there_is(sentence: str, why: str) -> None:
    text = RELAY + '[[loss]]\nfrom = 3\nto = 2\nevery = 1\n'
    with deciding_by(TABLE.texts['relay_report']):
        broken, = breaks([read_sentence(sentence, NAMES['relay'])],
                         Finder(FINDERS['relay'].report, Scenario.parse(text)))
    assert broken and broken.words == why


@pytest.mark.parametrize('text', [
    '', 'no such case', 'not for mote 1: no such test', 'also for mote 4: at least 1 line "halt"',
    'also for mote 1: at least 1 line "halt"; line 3 of mote 1, at 9, is one too many',
    'not for mote 1: at least 1 line "halt"; line 3 of mote 1, at 9'])
def test_what_is_no_break_of_the_claim_is_refused(text: str) -> None:
    claim, = Claims(FINDERS['relay'].scenario).of(read_sentence('no mote halts', NAMES['relay']))
    assert read_break('also for mote 1: at least 1 line "halt"; line 3 of mote 1, at 9', claim).line == (1, 3)
    with pytest.raises(UnknownBreak):
        read_break(text, claim)


def test_a_count_behind_prints_is_no_process() -> None:
    for words in 'exactly 2 times', 'exactly 2 times from 1 to 4', 'once', 'at most 2 times', 'by 4':
        sentence = 'every mote but 0 prints ' + words
        assert read_sentence(sentence, Names()) == read_sentence(sentence, Names(('p',), 3))
    named, plain = (read_sentence('mote 0 prints %sonce' % it, Names()) for it in ('p ', ''))
    assert named != plain


NETS: dict[str, dict[str, str]] = {
    '': {}, 'free': {'loss = [{ from = 3, to = 2, every = 1 }]': ''}, 'apart': {'collide = true': 'collide = false'},
    'early': {'end = 100': 'end = 20'}}


@pytest.mark.parametrize('sentence, net, remark', [
    ('mote 0 never sends from 101 on', '', remarks.AFTER_THE_END % (100, 101)),
    ('no copy collides after 100', '', remarks.AFTER_THE_END % (100, 101)),
    ('no packet is sent at 105', '', remarks.AFTER_THE_END % (100, 105)),
    ('mote 0 sends at most 7 in each 10 from 200 to 240', '', remarks.AFTER_THE_END % (100, 200)),
    ('no mote sends after mote 2 halts', '', remarks.NO_EVENT % 'mote 2 halts'),
    ('mote 0 sends at most once for each value that it receives by 2', '', remarks.NO_VALUE),
    ('mote 0 sends at most 9 within 5 of receiving 7', '', remarks.NO_EVENT % 'receiving 7'),
    ('motes 0 to 3 together never send after motes 0 to 2 together halt', '',
     remarks.NO_EVENT % 'motes 0 to 2 together halt'),
    ('no copy collides at mote 2', 'apart', remarks.NO_COLLISIONS),
    ('no copy is lost at mote 1', 'free', remarks.NO_LOSSES),
    ('some copy is lost at mote 1', 'free', remarks.NO_LOSSES),
    ('every copy arrives at mote 0', 'early', remarks.NO_COPIES),
    ('every mote but 0 to 3 sends', '', remarks.OF_NO_MOTE % 'true'),
    ('some mote but 0 to 3 sends', '', remarks.OF_NO_MOTE % 'false'),
    *((it, '', '') for it in ('no mote sends after mote 3 halts', 'no mote sends 9 after receiving 1',
                              'mote 0 sends by 500',
                              'no copy is lost at mote 1', 'every copy arrives at mote 0', 'no mote halts twice'))])
def test_remarks_on_sentences_that_say_nothing(sentence: str, net: str, remark: str) -> None:
    text = SCENARIO
    for old, new in NETS[net].items():
        assert old in text
        text = text.replace(old, new)
    finder, meant = Finder(Report.parse(REPORT), Scenario.parse(text)), read_sentence(sentence, NAMES['flood'])
    with deciding_by(REPORT):
        assert remarks.remark_of(meant, finder, breaks([meant], finder) == [None]) == remark


@pytest.mark.parametrize('sentence, like, shown', [
    ('mote 0 sends twise', 'twice', 'no mote sends more than twice'), ('evry mote halts', 'every', 'every mote but 0'),
    ('mote 0 prnts flood 1', 'prints', 'mote 6 prints'), ('mote 1 prints flod', 'flood', 'mote 6 prints'),
    ('no copy colides', 'collides', 'no copy collides'), ('mote 1 prints zzz', '', 'mote 6 prints'),
    ('5 %', '', 'at least 5 motes')])
def test_the_nearest_word_and_an_example_are_named(sentence: str, like: str, shown: str) -> None:
    with pytest.raises(SentenceFault) as caught:
        read_sentence(sentence, NAMES['flood'])
    assert caught.value.like == like and '  Example: ' + shown in caught.value.explained.splitlines()[-1]


def test_examples_can_be_read_and_words_that_begin_with_a_comma_have_quotes() -> None:
    for sentence in EXAMPLES:
        read_sentence(sentence, Names(('flood',), 25))
    with pytest.raises(SentenceFault, match='Allowed here: ", one hop nearer to mote"'):
        read_sentence('every mote prints flood a mote that it hears', NAMES['flood'])


def test_sentences_that_cannot_be_read_are_counted() -> None:
    with pytest.raises(UnknownSentence) as raised:
        read_all(['mote 0 hops', 'mote 0 sends', 'mote 0 jumps'], Names())
    assert raised.value.which == 'expectations 1, 3 are not known'
    for count, seen in (11, '1 more expectation is not known'), (15, '5 more expectations are not known'):
        with pytest.raises(UnknownSentence) as raised:
            read_all(['mote 0 hops'] * count, Names())
        assert str(raised.value).split('\n')[-1] == seen
        assert raised.value.which == 'expectations 1, 2, 3, 4, 5, 6, 7, 8, 9, 10, .. are not known'


# The programs that decide. For this motecheck mote 2 halts, and all else holds.

CHECKER = """#!/bin/bash
cat "$1" "$2" >"${0%/*}/asked"
sed 's/.*"halt"$/broken: & -- also for mote 2: at least 1 line "halt"; line 3 of mote 2, at 46/; t; s/^/holds: /' "$2"
exit 1
"""


@pytest.fixture
def room(tmp_path: Path) -> Path:
    TABLE.write(tmp_path, {**TABLE.files, 'motecheck': CHECKER})
    for name in 'motesim', 'motecheck':
        (tmp_path / name).chmod(0o755)
    return tmp_path


def said(room: Path, text: str, motecheck: str) -> 'subprocess.CompletedProcess[str]':
    (room / 'a.expect.toml').write_text(text)
    return call('expect', 'a.toml', cwd=room,
                env={**os.environ, 'MOTESIM': str(room / 'motesim'), 'MOTECHECK': motecheck})


def test_the_verdict_is_that_of_motecheck(room: Path) -> None:
    text = 'expect = ["mote 0 sends exactly 3 times", "mote 1 can hear mote 0", "no mote halts"]'
    done = said(room, text, str(room / 'motecheck'))
    assert (done.stderr, done.returncode) == ('', 1)
    assert done.stdout.splitlines() == [
        'holds   mote 0 sends exactly 3 times', 'holds   mote 1 can hear mote 0', 'broken  no mote halts',
        '          also for mote 2: at least 1 line "halt"; the line that meets it is',
        '          line 17: 46 send 0 1',
        '2 passed, 1 failed']
    assert (room / 'asked').read_text() == SCENARIO + (
        'mote 0: exactly 3 lines "send"\nthe net: always\nexactly 0 of motes 0 to 3: at least 1 line "halt"')
    assert 'there is no program none (the environment variable MOTECHECK names it)' in said(room, text, 'none').stderr


def test_a_program_that_is_not_compiled_is_no_fault_of_the_expectations(room: Path) -> None:
    # (an earlier test of this process may have found a program)
    uncached = programs._program_here.__wrapped__
    (room / 'a.expect.toml').write_text('expect = ["mote 0 sends"]')
    for name in 'motesim', 'motecheck':
        with mock.patch.dict(os.environ, programs_of(room / 'motesim')), mock.patch.multiple(
                programs, program_of_sources=lambda name: None, module_program=lambda name: None,
                _program_here=uncached):
            os.environ.pop(name.upper())
            done = call('expect', 'a.toml', cwd=room)
        assert (done.stdout, done.returncode, done.stderr) == ('', 2, 'expect: %s\n' % programs.nothing_runs(name))


def test_quietly_only_what_is_broken_is_told(room: Path, capsys: pytest.CaptureFixture[str]) -> None:
    (room / 'a.expect.toml').write_text('expect = ["mote 0 sends", "no mote halts"]')
    with mock.patch.dict(os.environ, programs_of(room / 'motesim')):
        assert expect(room / 'a.toml', room / 'a.expect.toml', is_quiet=True) == (1, 1)
    assert 'mote 0 sends' not in capsys.readouterr().out


class Page(unittest.TestCase):
    """The tables of forms in EXPECTATIONS: each form is read, and each phrase of the reader is in one."""
    # For each table, by the title of its first column, the sentences in which its forms are tried.
    FRAMES = {'MOTES': ('%s halt', '%s halts'), 'DEED': ('mote 1 %s', 'all motes %s'), 'VALUE': ('mote 1 prints p %s',),
              'TIMES': ('mote 1 sends %s',), 'WHEN': ('mote 1 sends %s',), 'ORDER': ('mote 1 sends 1 %s',),
              'Expectation': ('%s',)}

    def setUp(self) -> None:
        page = (TOP / 'docs/use/EXPECTATIONS.md').read_text('utf-8')
        self.forms: dict[str, list[str]] = {}
        for title in self.FRAMES:
            rows = re.findall(r'^\| (`.*?`) \|', page.split('| %s |' % title)[1].split('\n\n')[0], re.M)
            self.forms[title] = [form for row in rows for form in re.findall(r'`([^`]+)`', row)]

    def is_read(self, sentence: str) -> bool:
        try:
            read_sentence(sentence.replace('VALUE', '7').replace(' P', ' p'), Names(('p', 'echo'), 40))
            return True
        except SentenceFault:
            return False

    def test_each_form_can_be_read(self) -> None:
        for title, frames in self.FRAMES.items():
            for form in self.forms[title]:
                with self.subTest(form):
                    self.assertTrue(any(self.is_read(frame % form) for frame in frames))
        self.assertGreater(sum(map(len, self.forms.values())), 80)

    def test_each_phrase_of_the_reader_is_in_a_form(self) -> None:
        known = set(re.findall(r'\w+|%', ' '.join(form for forms in self.forms.values() for form in forms)))
        calls = [it for it in ast.walk(ast.parse(inspect.getsource(sentences))) if isinstance(it, ast.Call)
                 and isinstance(it.func, ast.Attribute) and it.func.attr in ('accept', 'need', 'verb')]
        phrases = {it.value for call in calls for it in call.args if isinstance(it, ast.Constant)}
        phrases |= {*sentences.MOTES_OF, *sentences.VALUES_OF, *sentences.OUTCOMES,
                    *(verb + 's' for verb in sentences.VERBS)}
        self.assertGreater(len(phrases), 60)
        missing = {phrase for phrase in phrases if not set(re.findall(r'\w+|%', phrase)) <= known}
        self.assertLessEqual(missing, {'print', 'receive', 'send', 'leave', 'write', 'halt', 'start'})


class Fields(unittest.TestCase):
    FIELDS = {'origin': 'value / 1024', 'seq': 'value % 1024'}

    def test_fields_of_values(self) -> None:
        origin, seq = read_fields(self.FIELDS)
        self.assertEqual([(origin.of(it), seq.of(it)) for it in (0, 1023, 1024, 65535)],
                         [(0, 0), (0, 1023), (1, 0), (63, 1023)])
        self.assertEqual(read_fields({'none': '1 / (value - value)'})[0].of(7), 0)
        self.assertEqual(of_line((origin, seq), 'print p 1031'), ' (origin 1, seq 7)')
        for words in 'take 1 p', 'lost 1 1031', 'halt':
            self.assertEqual(of_line((origin, seq), words), '')
        self.assertEqual(of_line((), 'send 1 9'), '')
        wrongs: list[dict[str, object]] = [{'Origin': 'value'}, {'a': 'value +'}, {'a': 'other'}, {'a': 3},
                                           {'a': 'value ** 2'}, {'a': '99999'}, {'a': "__import__('os')"}]
        for wrong in wrongs:
            with self.assertRaisesRegex(Fault, 'is not a formula'):
                read_fields(wrong)

    def test_sentences_with_fields(self) -> None:
        names = Names(('p',), 4, fields=read_fields(self.FIELDS))
        for words, value in (('mote 0 prints p with origin 1, seq 7', Value('any', values=frozenset([1031]))),
                             ('mote 0 prints p 1031', Value('number', 1031)),
                             ('every mote sends with seq 7 at least 2 times by 9',
                              Value('any', values=frozenset(range(7, 65536, 1024))))):
            read = read_sentence(words, names)
            assert isinstance(read, Does)
            self.assertEqual(read.deed.patterns[0][2], value)
        for wrong in 'mote 0 prints p with sek 7', 'mote 0 prints p with seq', 'mote 0 prints p with':
            with self.assertRaises(SentenceFault):
                read_sentence(wrong, names)
        with self.assertRaises(SentenceFault):
            read_sentence('mote 0 prints p with seq 7', Names(('p',), 4))

    def test_reasons_have_fields_and_no_lists_of_numbers(self) -> None:
        part, = parts_of("""fields = { origin = "value / 4", seq = "value % 4" }\nexpect = [
            "mote 1 sends with seq 3 by 90", "mote 1 finally prints flood with origin 1, seq 2",
            "mote 1 prints just flood with seq 1", "mote 2 prints flood once for each value that mote 0 sends",
            "motes 1 and 2 finally print the same flood"]""", 'a')
        with deciding_by(REPORT):
            verdicts = judged(SCENARIO, part, lambda scenario: Answer(0, REPORT.encode(), b''))
        self.assertEqual([it.more[0].partition(', but there')[0] for it in verdicts], [
            'not for mote 1: at least 1 line "send value seq 3" from 0 to 90',
            'not for mote 1: the last line "print process flood" has the value origin 1, seq 2',
            'not for mote 1: the lines "print process flood" have in order of time exactly the values seq 1',
            'not for mote 0: each value of the lines "send" is the value of exactly 1 line "print process flood" of '
            'mote 2; missing: 2 (origin 0, seq 2); the first line whose value is missing is',
            'not for mote 2: the last line "print process flood" has the value of the last line "print process flood" '
            'of mote 1; missing: 2 (origin 0, seq 2); superfluous: 1 (origin 0, seq 1); the last such line is'])

    def test_a_file_declares_the_format_of_packets(self) -> None:
        text = 'fields = { seq = "value % 16" }\nexpect = ["mote 0 sends with seq 1"]\n'
        part = parts_of(text + "[[change]]\nreplace = { a = 'b' }\nexpect = ['mote 0 sends with seq 2']\n", 'a')
        self.assertEqual([it.fields for it in part], [read_fields({'seq': 'value % 16'})] * 2)
        with deciding_by(REPORT):
            verdicts = judged(SCENARIO, part[0], lambda scenario: Answer(0, REPORT.encode(), b''))
        self.assertEqual([it.holds for it in verdicts], [True])
        with self.assertRaisesRegex(Fault, 'fields of a is not a table, such as'):
            parts_of('fields = 3\nexpect = ["mote 0 sends"]', 'a')
