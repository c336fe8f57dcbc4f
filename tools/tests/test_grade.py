"""Marks for a folder of solutions: what no table of sessions has, as hostile folders, signals, and errors in the tool.
The other tests are in sessions/grade.toml."""
import contextlib
import os
import re
import signal
import socket
import subprocess
import sys
from collections.abc import Iterator
from pathlib import Path
from unittest import mock

import pytest
from here import SECONDS, TOOLS, call, rows_of, until
from motesim.faults import Fault
from motesim.grading import tables
from motesim.grading.entries import Entry, data_of, entries_of
from motesim.grading.marking import Task, page_name
from motesim.grading.marks import Mark, Marks
from motesim.grading.nets import nets_of, program_of
from motesim.grading.page import page_of
from motesim.grading.tables import cell
from motesim.judge.expectations import parts_of
from motesim.report.run import Answer
from motesim.runner import Limits
from motesim.scenario import Scenario
from sessions import TABLES, Table
from stub import judged, programs_of, write_stub

TEXTS = Table(TABLES / 'grade.toml').texts
NET, GOOD, WRONG, PROGRAM = (TEXTS[it] for it in ('net', 'good', 'wrong', 'program'))
EXPECT = 'expect = ["every mote prints a 3", "mote 1 prints a at 6", "no mote halts"]\n'


class Class:
    """A folder of solutions in a folder of a teacher, with a program that answers short reports."""

    def __init__(self, top: Path) -> None:
        self.top, self.folder, self.stub = top, top / 'class', write_stub(top)
        self.env = {**os.environ, **programs_of(self.stub)}
        self.folder.mkdir()
        (top / 'task.expect.toml').write_text(EXPECT)
        (top / 'task.toml').write_text(NET)
        self.hand_in('anna.toml', GOOD)

    def hand_in(self, name: str, text: str) -> Path:
        path = self.folder / name
        path.write_text(text)
        return path

    def grade(self, *words: str, status: int = 0) -> str:
        with judged():
            done = call('grade', 'class', 'task.expect.toml', *words, cwd=self.top, env=self.env)
        assert (done.returncode, 'Traceback' in done.stderr) == (status, False), done.stderr
        self.seen = done.stderr
        return done.stdout

    @contextlib.contextmanager
    def begun(self, *words: str) -> Iterator[subprocess.Popen[bytes]]:
        with subprocess.Popen([sys.executable, '-B', str(TOOLS / 'grade'), 'class', 'task.expect.toml', *words],
                              cwd=self.top, env=self.env, stdout=subprocess.DEVNULL, start_new_session=True) as made:
            try:
                yield made
            finally:
                made.kill()


@pytest.fixture
def room(tmp_path: Path) -> Class:
    return Class(tmp_path)


def test_whatever_there_is_becomes_a_row_and_none_stops_the_others(room: Class) -> None:
    for name in 'x.toml', 'group':
        (room.folder / name).mkdir()
    (room.folder / 'gone.toml').symlink_to('nowhere')
    (room.folder / 'other.toml').symlink_to(room.folder / 'anna.toml')
    os.mkfifo(room.folder / 'pipe.toml')
    long, utf16 = 'b%sn.toml' % ('e' * 238), GOOD.encode('utf-16')
    for name, text in (('deep.toml', 'x = ' + '[' * 500), ('key.toml', '.'.join(['a'] * 100_000) + ' = 1'),
                       ('zoe.toml.txt', GOOD), ('large.toml', '#' * 1_048_577), ('new\nline.toml', GOOD),
                       ('=1+1.toml', GOOD),
                       (os.fsdecode(b'raw\xff.toml'), GOOD), ('group/eve.toml', GOOD), (long, WRONG)):
        room.hand_in(name, text)
    for name in 'word.mote', 'bytes.toml':
        (room.folder / name).write_bytes(utf16)
    with socket.socket(socket.AF_UNIX) as made:
        made.bind(str(room.folder / 'socket.toml'))
        rows = dict(re.findall(r'^(\S+) +([-0-9] of 3.*)$', room.grade('--net', 'task.toml', '-o', 'marks.html') and
                               room.grade('--net', 'task.toml'), re.M))
    for name, said in rows_of('no_solutions.tsv'):
        assert re.match('0 of 3 .*' + said, rows.pop(name)), name
    assert rows.pop('zoe.toml.txt').startswith('- of 3')
    assert rows.pop('b%s..%sn.toml' % ('e' * 18, 'e' * 13)) == '1 of 3  broken: 1, 2'
    assert rows == dict.fromkeys(['=1+1.toml', 'anna.toml', 'group/eve.toml', 'new\\nline.toml', 'raw\\xff.toml'],
                                 '3 of 3')
    page = (room.top / 'marks.html').read_text('utf-8')
    assert '<td title="%s">be' % long in page and '\ufffd' not in page


def test_a_pipe_that_takes_the_place_of_a_file_is_not_waited_for(room: Class) -> None:
    [entry] = entries_of(room.folder)[0]
    entry.path.unlink()
    os.mkfifo(entry.path)
    with pytest.raises(Fault):
        data_of(entry)


@pytest.mark.parametrize('text, found', [
    (NET, PROGRAM), (NET.replace('task', 'other'), PROGRAM), ('[programs]\na = "1"\ntask = "2"\n', '2'),
    ('[programs]\na = "1"\nb = "2"\n', Fault), ('programs = 3\n', Fault), ('[programs]\ntask = 3\n', Fault),
    ('end = 5\n[places]\nrule = "line"\n', Fault)])
def test_what_of_a_solution_is_taken(text: str, found: str | type[Fault]) -> None:
    if isinstance(found, str):
        assert program_of(text, 'a.toml', 'task') == found
    else:
        with pytest.raises(found):
            program_of(text, 'a.toml', 'task')


def test_the_net_stays_as_it_is() -> None:
    path = TOOLS.parent / 'examples/small_network.toml'
    before = Scenario.parse(path.read_bytes())
    after = Scenario.parse(nets_of([path], [], 'sender')[0].with_program('process other;'))
    assert vars(after) == {**vars(before), 'text': after.text,
                           'programs': {**before.programs, 'sender': 'process other;'}}


def test_no_two_pages_fill_the_same_folder() -> None:
    # (readers may follow several pages in one clone, and a folder of solutions has a row for each file)
    filled = [folder for page in sorted((TOOLS.parent / 'docs/use').glob('*.md'))
              for folder in set(re.findall(r'mkdir (?:-p )?(\w+)', page.read_text('utf-8')))]
    assert filled and len(filled) == len(set(filled)), filled


@pytest.mark.parametrize('count, nets', [(1, 'in n1.toml'), (2, 'in n1.toml, n2.toml; in n1.toml:'),
                                         (5, 'in n1.toml, n2.toml, n3.toml and 2 more; in n1.toml:')])
def test_why_names_some_nets_and_the_one_of_its_reason(count: int, nets: str) -> None:
    mark = Mark('mote 0 prints a 1', False, tuple('n%d.toml' % it for it in range(1, count + 1)), ('none',))
    assert [it.strip() for it in tables.why(Marks('ben', (mark,)))[1:]] == [nets, 'none']


def test_no_two_pages_have_one_name() -> None:
    names = [page_name(number, name, 'n 1') for number, name in enumerate(('a/b.toml', 'a_b.toml', 'a b.toml', '.a',
                                                                           'x' * 99, 'x' * 98), 1)]
    assert len(set(names)) == len(names), names


@pytest.mark.parametrize('number', [signal.SIGTERM, signal.SIGHUP, signal.SIGKILL])
def test_all_its_processes_end_with_it(room: Class, number: signal.Signals) -> None:
    def commands_of(session: int) -> list[str]:
        """The command lines of the processes of a session that haven't ended."""
        found = []
        for it in Path('/proc').glob('[0-9]*'):
            with contextlib.suppress(OSError):
                state, _, _, its = (it / 'stat').read_text().rpartition(')')[2].split()[:4]
                if its == str(session) and state != 'Z':
                    found.append((it / 'cmdline').read_text('utf-8', 'replace'))
        return found
    room.hand_in('wait.toml', GOOD.replace('code a', '// wait\ncode a'))
    with room.begun() as made:
        assert until(lambda: any(str(room.stub) in it for it in commands_of(made.pid)))
        made.send_signal(number)
        made.wait(SECONDS)
        assert until(lambda: not commands_of(made.pid))


def test_no_cell_of_a_spreadsheet_is_a_formula() -> None:
    for text in '=1', '+1', '-1', '@x', '\t=1', '\r=1', ' =1', '\u3000\uff1d1', '\uff0b1', '\uff20x':
        assert cell(text) == "'" + text
    assert cell('anna') == 'anna'


def test_a_run_that_is_too_long_for_a_page_says_so_in_its_row(room: Class) -> None:
    room.hand_in('anna.toml', WRONG)
    task = Task(parts_of(EXPECT, 'task.expect.toml')[0], (), Limits(60), room.top)
    [entry] = entries_of(room.folder)[0]
    with mock.patch.dict(os.environ, room.env):
        assert task.of((1, entry)).no_page == ''
        with mock.patch('motesim.grading.marking.MOST_SHOWN', 20):
            marks = task.of((1, entry))
    assert marks.picture == '' and 'a page shows at most 20' in marks.no_page
    assert marks.no_page in page_of([marks], ['a', 'b', 'c'], 'Marks', 'runs')


def test_an_error_in_a_hint_changes_no_mark(room: Class) -> None:
    path, failed = room.hand_in('ben.mote', PROGRAM.replace('print', 'prnt')), IndexError('of a tuple')
    part = parts_of('expect = ["every mote prints a 3"]', 'task.expect.toml')[0]
    task = Task(part, tuple(nets_of([room.top / 'task.toml'], [], None)), Limits())
    with mock.patch.object(Task, 'answer', return_value=Answer(1, b'', b'motesim: program task fault 3 line 3')):
        for failing in 'motesim.explain.explanation.advice', 'motesim.grading.marking.of_program_file':
            with mock.patch(failing, side_effect=failed):
                marks = task.of((1, Entry('ben.mote', path)))
            assert (marks.has_mark, marks.held) == (True, 0)
            assert 'IndexError: of a tuple' in ' '.join(marks.fix) or failing.endswith('file')


def test_a_page_is_escaped() -> None:
    marks = Marks('<b>', (Mark('"a" & <i>', False, ('<net>',), ('<why>',)),))
    page = page_of([marks], ['"a" & <i>'], '<title>', 'x"y')
    assert not any(it in page for it in ('<b>', '<i>', '<net>', '<why>', 'x"y'))
