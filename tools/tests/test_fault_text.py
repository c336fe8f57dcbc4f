"""The words of faults, and the runs of ./run with them. What the tools say of faults is in sessions/faults.toml."""
import subprocess
from pathlib import Path

import pytest
from here import SECONDS, TOP
from motesim.scenario.fault_text import TEXTS, lines_of, read_fault, read_faults
from skips import need_built

NEWS = TOP / 'examples/news.toml'
# A text of each kind, after mote 1 is removed, and after mote 2 is.
MOVED = {
    'link 2 to 3 is broken': ('link 1 to 2 is broken', None),
    'mote 3 is silent': ('mote 2 is silent', 'mote 2 is silent'),
    'packet 5 of mote 2 is lost': ('packet 5 of mote 1 is lost', None),
    'packet 5 of mote 3 is lost on the way to mote 4': ('packet 5 of mote 2 is lost on the way to mote 3',) * 2,
    'packet 5 of mote 3 is 4 late on the way to mote 2': ('packet 5 of mote 2 is 4 late on the way to mote 1', None),
    'mote 2 is off from 40 on': ('mote 1 is off from 40 on', None),
    'mote 0 is off from 0 to 2': ('mote 0 is off from 0 to 2',) * 2,
    'mote 3 restarts at 2': ('mote 2 restarts at 2',) * 2,
}


def test_a_fault_is_written_as_it_was_read_and_follows_its_motes() -> None:
    faults = read_faults(MOVED)
    assert [it.text for it in faults] == [*MOVED] and {it.kind for it in faults} == {*TEXTS}
    for it in faults:
        less = tuple(found and found.text for found in (it.without({1}), it.without({2})))
        assert less == MOVED[it.text]


@pytest.mark.parametrize('text', ['link 1 to 2 is broke', ' mote 3 is silent', 'mote -3 is silent', ''])
def test_another_text_is_no_fault(text: str) -> None:
    assert read_fault(text) is None


def test_a_fault_loses_what_it_names() -> None:
    copies = [(sender, packet, to) for sender in range(3) for packet in range(3) for to in range(3)]
    for text, lost in {
            'link 1 to 2 is broken': {(1, it, 2) for it in range(3)},
            'mote 1 is silent': {(1, it, to) for it in range(3) for to in range(3)},
            'packet 0 of mote 1 is lost': {(1, 0, to) for to in range(3)},
            'packet 0 of mote 1 is lost on the way to mote 2': {(1, 0, 2)},
            'packet 0 of mote 1 is 3 late on the way to mote 2': set[tuple[int, int, int]](),
            'mote 1 is off from 3 on': set[tuple[int, int, int]]()}.items():
        fault = read_fault(text)
        assert fault and {it for it in copies if fault.loses(*it)} == lost


def test_a_file_has_a_fault_in_each_line_but_for_comments() -> None:
    assert lines_of('# two\nmote 1 is silent\n\nmote 2 is silent') == ['mote 1 is silent', 'mote 2 is silent']


def run(folder: Path, *words: str) -> tuple[int, str, str]:
    done = subprocess.run([TOP / 'run', NEWS, *words], cwd=folder, capture_output=True, text=True, timeout=SECONDS)
    return done.returncode, done.stdout, done.stderr


def test_run_takes_faults(tmp_path: Path) -> None:
    need_built()
    (tmp_path / 'a.faults').write_text('mote 0 is silent\n')
    for words in ['--fault', 'mote 0 is silent'], ['--fault=mote 0 is silent'], ['--faults', 'a.faults']:
        status, said, _ = run(tmp_path, *words)
        assert status == 0 and said.endswith('medium\n10 0 0 7 1@lost 3@lost 4@lost\nleft 0\n')
    status, said, seen = run(tmp_path, '--fault', 'mote 9 is silent')
    # (before it, node may be named)
    assert (status, said, seen.splitlines()[-1]) == (
        2, '', "run: `mote 9 is silent` names a mote or a link that the net doesn't have")
