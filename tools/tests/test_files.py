"""Files that are written whole, names that are not UTF-8, and errors of the tools themselves."""
import os
import stat
import subprocess
import tempfile
import threading
import unittest
from collections.abc import Iterator
from pathlib import Path
from unittest import mock

from here import TOOLS, Room, scenario_of
from motesim.faults import Fault
from motesim.files import NotWritten, write_whole
from stub import write_stub

SCENARIO = scenario_of('process a; autostart a; code a { body { print 7; } }')


class Whole(Room):
    def names(self) -> list[str]:
        return sorted(os.listdir(self.room))

    def test_a_new_file_has_the_mode_of_new_files(self) -> None:
        write_whole(self.room / 'a', [b'one', b'two'])
        (self.room / 'b').write_bytes(b'')
        self.assertEqual((self.room / 'a').read_bytes(), b'onetwo')
        self.assertEqual(*(stat.S_IMODE((self.room / name).stat().st_mode) for name in 'ab'))

    def test_a_file_that_is_there_keeps_its_mode_and_its_links(self) -> None:
        (self.room / 'a').write_bytes(b'old')
        (self.room / 'a').chmod(0o640)
        (self.room / 'link').symlink_to('a')
        write_whole(self.room / 'link', [b'new'])
        self.assertEqual(((self.room / 'a').read_bytes(), stat.S_IMODE((self.room / 'a').stat().st_mode)), (b'new',
                                                                                                            0o640))
        self.assertTrue((self.room / 'link').is_symlink())

    def test_what_fails_half_way_leaves_the_file_and_nothing_else(self) -> None:
        def parts() -> Iterator[bytes]:
            yield b'half'
            raise OSError(28, 'No space left on device')
        for name in 'old', 'new':
            if name == 'old':
                (self.room / 'old').write_bytes(b'kept')
            with self.assertRaisesRegex(Fault, '%s: No space left on device$' % name):
                write_whole(self.room / name, parts())
        with self.assertRaisesRegex(NotWritten, 'none/a: No such file or directory$') as raised:
            write_whole(self.room / 'none/a', [b''])
        self.assertEqual(raised.exception.why, 'No such file or directory')
        self.assertEqual((self.names(), (self.room / 'old').read_bytes()), (['old'], b'kept'))

    def test_two_at_once_both_end(self) -> None:
        texts = [b'a' * 1_000_000, b'b' * 1_000_000]
        def write(text: bytes) -> None:
            for _ in range(10):
                write_whole(self.room / 'a', [text])
        threads = [threading.Thread(target=write, args=(text,)) for text in texts]
        for it in threads:
            it.start()
        for it in threads:
            it.join()
        self.assertIn((self.room / 'a').read_bytes(), texts)
        self.assertEqual(self.names(), ['a'])

    def test_what_is_no_plain_file_is_written_as_it_is(self) -> None:
        os.mkfifo(self.room / 'pipe')
        got = []
        reader = threading.Thread(target=lambda: got.append((self.room / 'pipe').read_bytes()))
        reader.start()
        write_whole(self.room / 'pipe', [b'text'])
        reader.join()
        self.assertEqual((got, self.names()), ([b'text'], ['pipe']))


class OddNames(Room):
    """File names that are not UTF-8, or that the terminal can't show."""

    def run_it(self, *words: str) -> str:
        done = self.tool(*words, MOTESIM=str(write_stub(self.room)))
        self.assertEqual((done.returncode, 'Traceback' in done.stderr), (0, False), words)
        return done.stdout

    def test_each_tool_takes_them(self) -> None:
        name = os.fsdecode(b'net\xff.toml')
        (self.room / name).write_text(SCENARIO)
        (self.room / os.fsdecode(b'net\xff.expect.toml')).write_text('expect = ["no mote halts"]\n')
        for tool in 'summary', 'explain', 'expect', 'timeline':
            self.run_it(tool, name)
        self.assertIn('net\\udcff.toml', self.run_it('compare', name, name))
        self.run_it('export', name, '--to', 'csv')

    def test_a_terminal_without_the_letters(self) -> None:
        (self.room / 'n\u00e9t.toml').write_text(SCENARIO)
        done = subprocess.run([TOOLS / 'timeline', 'n\u00e9t.toml'], cwd=self.room, capture_output=True,
                              env={**os.environ, 'MOTESIM': str(write_stub(self.room)), 'PYTHONIOENCODING': 'ascii'})
        self.assertEqual((done.returncode, done.stdout), (0, b'n\\xe9t.html\n'))


class Pages(unittest.TestCase):
    def test_what_a_browser_opens_is_where_it_can_read(self) -> None:
        """Browsers that are installed as snaps read no folder for scratch files, and none with a name like `.x`."""
        from motesim.studio.command import room
        with tempfile.TemporaryDirectory() as home, mock.patch.dict(os.environ, HOME=home):
            with room() as folder:
                self.assertEqual(str(Path(folder).parent), home)
                self.assertFalse(Path(folder).name.startswith('.'))
                self.assertEqual(stat.S_IMODE(Path(folder).stat().st_mode), 0o700)
            self.assertEqual(os.listdir(home), [])
        with mock.patch.dict(os.environ, HOME='/nowhere'):
            with room() as folder:
                self.assertTrue(Path(folder).is_dir())
