"""The places of errors, and a test that each kind of error of the pages has its words. What the command says is in
sessions/explain.toml."""
import contextlib
import io
import os
import re
from collections.abc import Sequence
from unittest import mock

import pytest
from here import TOP, rows_of, scenario_of, work_of
from motesim.explain import explanation as explain
from motesim.explain.applied import changes
from motesim.notation import faults as program_faults
from motesim.notation import reader
from motesim.report.run import Answer
from motesim.scenario import faults as scenario_faults
from motesim.text import folded
from sessions import TABLES, Table

SCENARIO = Table(TABLES / 'explain.toml').texts['scenario']

# Parts without which the scenario isn't one, by the names of what it lacks then.
PARTS = {'version': 'version = 1\n', 'end': 'end = 5\n', 'medium': '[medium]\nrange = 10\nbase = 1\nper = 100\n',
         'programs': SCENARIO[SCENARIO.index('[programs]'):SCENARIO.index('[[mote]]')],
         'mote': SCENARIO[SCENARIO.index('[[mote]]'):]}


def changed(old: str, new: str, text: str = SCENARIO) -> str:
    assert old in text, old
    return text.replace(old, new)


def explained(text: str, message: str = '') -> list[str]:
    """What is said of a scenario, whose first error has this message."""
    fault = scenario_faults.find_fault(text.encode())
    assert fault and (not message or fault.message == message)
    return folded(explain.explanation('s.toml', text.encode(), 'motesim: ' + fault.message))


def mark_of(lines: Sequence[str]) -> tuple[int, str]:
    """The line number of what is shown, and the part of it that is marked."""
    number = int(re.findall(r'line (\d+)', lines[0])[0])
    return number, lines[1][lines[2].index('^'):lines[2].rindex('^') + 1]


# Programs.

@pytest.mark.parametrize('text, kind, line, column, word, may', [
    *rows_of('program_errors.tsv'), ('process a;\ncode a { body { ' + 'yield; ' * 4097 + '} }', '8', '2', '28688',
                                     'yield', '4,096'),
    ('process a;\n// b\n\tcode a { body { print 01; } }', '1', '3', '23', '01', 'a number')],
                         ids=lambda it: str(it)[:20])
def test_the_first_error_of_a_program(text: str, kind: str, line: str, column: str, word: str, may: str) -> None:
    fault = reader.find_fault(text)
    if kind == '0':
        assert fault is None
        return
    assert fault and (fault.kind, *fault.token[:3]) == (int(kind), word, int(line), int(column))
    assert any(may in it for it in fault.may), fault.may


def test_the_kinds_of_the_page() -> None:
    page = (TOP / 'docs/use/LANGUAGE.md').read_text('utf-8')
    rules = re.findall(r'^\| (\d+) \| (\w+) \|', page, re.M)
    assert rules == [(str(number), name) for number, (name, _) in enumerate(program_faults.RULES.values(), 1)]
    assert all(name in explain.rule_of('program p fault %s line 1' % kind) for kind, name in rules)


@pytest.mark.parametrize('quotes', ["'''", '"""'])
@pytest.mark.parametrize('body, line, row',
                         [('{\n  body { print 1; }\n}\n', 9, 3), ('  body { print 1; }\n}\n}\n', 11, 5)])
def test_the_line_of_a_brace_is_its_own(quotes: str, body: str, line: int, row: int) -> None:
    text = scenario_of('process p; autostart p;\ncode p {\n' + body).replace("'''", quotes)
    shown = ' '.join(' '.join(explained(text)).split())
    assert 'line %d, which is line %d of program p: %s' % (line, row, body[0] if row == 3 else '}') in shown


# Scenarios.

@pytest.mark.parametrize('old, new, message, line, marked', rows_of('scenario_errors.tsv'))
def test_the_place_of_an_error_of_a_scenario(old: str, new: str, message: str, line: str, marked: str) -> None:
    lines = explained(changed(old, new), message)
    number, shown = mark_of(lines)
    assert (number, shown.strip()) == (int(line), marked)
    assert any(it.startswith('Allowed here: ') for it in lines)


def test_a_loss_of_no_packets_isnt_changed_into_a_loss_of_all() -> None:
    for value in '0', '-1':
        assert 'Write, as' not in ' '.join(explained(changed('every = 2', 'every = ' + value)))


@pytest.mark.parametrize('value, code', [('30001', 'at-most'), ('-30001', 'at-least')])
def test_a_number_beyond_a_bound_has_the_bound(value: str, code: str) -> None:
    found = explain.correction_of(changed('x = 1', 'x = ' + value))
    assert found and found.code == code


@pytest.mark.parametrize('second', ['', 'collide = true\n'])
@pytest.mark.parametrize('name, part', PARTS.items(), ids=PARTS)
def test_what_is_lacking_at_the_top_is_added(name: str, part: str, second: str) -> None:
    text = SCENARIO.replace(part, '')
    if second:
        text = text.replace('version = 1', 'version = 2').replace('per = 100\n', 'per = 100\n' + second)
    lines = explain.explanation('..', text.encode(), 'motesim: scenario fault 2')
    assert (lines[0], any('^' in it for it in lines)) == ('.. has no `%s`.' % name, False)
    found = explain.correction_of(text)
    assert found and found.code == 'scenario-needs'
    after = scenario_faults.find_fault(found.applied(text).encode())
    # (losses between motes that aren't there are left)
    assert (after and after.message) in (None, 'medium fault 4')


def test_an_empty_text_and_a_table_with_another_name() -> None:
    assert scenario_faults.find_fault(list(changes(''))[-1][1].encode()) is None
    text = changed('[medium]', '[medum]')
    assert mark_of(explain.explanation('..', text.encode(), 'motesim: scenario fault 2')) == (3, '[medum]')


@pytest.mark.parametrize('data, line, number, said', [
    (b'mote 0 p\nmedium\nleft 0\n', 'scenario fault 1', 1, 'Hint: This is a report, not a scenario'),
    (b'\x1b[2J = 5\n', 'scenario fault 1', 1, '  \ufffd[2J = 5'),
    (changed('version', '# Z\xfcrich\nversion').encode('cp1252'), 'scenario is not UTF-8', 1, 'Hint: '),
    (b'#\n' * 524_289, 'scenario too long', 524_289, ''),
    *((SCENARIO.encode(), it, None, 'This tool can\'t show the place of the error.') for it in (
        'out of memory', 'scenario fault 4', 'anything'))], ids=range(7))
def test_what_is_no_scenario(data: bytes, line: str, number: int | None, said: str) -> None:
    """A report, a sign that a terminal takes for a command, a byte that isn't UTF-8, a text that is too long, and
    errors of which no place is known."""
    lines = explain.explanation('s.toml', data, 'motesim: ' + line)
    assert any(it.startswith(said) for it in lines) and (not number or mark_of(lines)[0] == number)


def test_a_long_line_is_shown_around_the_mark() -> None:
    text = 'process a; code a { body { %s print zz; } }' % ('yield; ' * 100)
    lines = explained(re.sub(r"'''\n.*?'''", '"%s"' % text, SCENARIO, flags=re.S), 'program p fault 3 line 1')
    assert mark_of(lines)[1] == 'zz' and all(len(line) < 120 for line in lines)


def test_each_line_of_the_scenarios_page_has_its_words() -> None:
    page = (TOP / 'docs/use/SCENARIO.md').read_text('utf-8').split('## Errors')[1].split('## Appendix')[0]
    lines = {'program' if it.startswith('program ') else it
             for it in re.findall(r'^\| `motesim: ([^`]+)` \|', page, re.M)}
    assert lines == {*scenario_faults.RULES}


@pytest.mark.parametrize('count', [28, 500, 5_000])
@pytest.mark.parametrize('form', ['n = %s1%s;', 'n = %sn + 1;', '%s', '%sn++;', '%s ', '%s  '])
def test_texts_that_are_nested_deeply_are_explained_at_once(count: int, form: str) -> None:
    begin = {'n = %s1%s;': '(', 'n = %sn + 1;': '!', '%s': 'while 1 {', '%sn++;': 'if (n == 1) ', '%s ': '{',
             '%s  ': 'n = f('}[form]
    body = form % (begin * count, ' + 1)' * count) if form.count('%s') == 2 else form % (begin * count)
    assert work_of(lambda: explained(changed('{ body { print 1; } }', '{ var n = 0; body { ' + body))) < 1000


CASES = [it for folder in ('faults', 'programs') for it in sorted((TOP / 'tests/cases' / folder).glob('*.stderr'))
         if it.with_suffix('.toml').is_file()]


def test_each_error_of_the_cases_has_a_place_and_a_rule() -> None:
    assert len(CASES) > 80
    for path in CASES:
        line = path.read_text('utf-8').rstrip('\n')
        lines = explain.explanation(path.stem, path.with_suffix('.toml').read_bytes(), line)
        assert ' has no `' in lines[0] or mark_of(lines)[0] > 0
        rule = explain.rule_of(line.removeprefix('motesim: '))
        assert rule.split()[-1] in ' '.join(lines[1:]).split() and any(it.startswith('Allowed here: ') for it in lines)


# An error in a hint leaves the error that it is about, and its line.

FAILED = IndexError('of a tuple')


@pytest.mark.parametrize('old, new, failing, said', [
    ('print 1', 'print z', 'advice', ['print z', 'UnknownName: ', 'Allowed here: ']),
    ('end = 5', 'ende = 5', 'repair', ['ende = 5', 'Allowed here: ']),
    ('print 1', 'print z', 'shown_program', ['UnknownName: '])])
def test_an_error_in_a_hint(old: str, new: str, failing: str, said: list[str]) -> None:
    with mock.patch.object(explain, failing, side_effect=FAILED), mock.patch.dict(os.environ):
        os.environ.pop('MOTESIM_TRACEBACK', None)
        found = ' '.join(' '.join(explained(changed(old, new))).split())
    assert 'because of an error in the tool itself: IndexError: of a tuple' in found
    assert all(it.strip() in found for it in said)


def test_an_error_in_a_warning() -> None:
    with mock.patch.object(explain, 'all_warnings',
                           side_effect=FAILED), contextlib.redirect_stdout(io.StringIO()) as said:
        with mock.patch.object(explain, 'read_file', return_value=b'#'):
            assert explain.explain('a.toml', lambda data: Answer(0, b'', b'')) == 0
    assert 'a.toml has a report, and no error\nIts warnings aren\'t shown' in said.getvalue()
