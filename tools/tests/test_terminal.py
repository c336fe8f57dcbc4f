"""What tools print never commands a terminal, whatever names somebody else chose."""
import io
import unittest
from unittest import mock

from here import call, Room
from motesim.progress import Progress
from motesim.terminal import CLEAR, one_line, plain
from skips import need_built

ERASE = '\r\x1b[2K'


class ProgressTest(unittest.TestCase):
    def shown(self, is_terminal: bool, elsewhere: float = 0) -> str:
        """What is written if a line may be due once."""
        seen = io.StringIO()
        setattr(seen, 'isatty', lambda: is_terminal)
        times = mock.patch.multiple('motesim.progress', ON_TERMINAL=0, ELSEWHERE=elsewhere)
        with times, mock.patch('sys.stderr', seen):
            progress = Progress()
            if progress.is_due():
                progress.show('1 of 2')
            progress.end()
        return seen.getvalue()

    def test_a_terminal_has_one_line_that_is_removed_and_a_file_has_lines(self) -> None:
        self.assertEqual(self.shown(True), CLEAR + '1 of 2' + CLEAR)
        self.assertEqual((self.shown(False), self.shown(False, 60)), ('1 of 2\n', ''))


class Terminal(Room):
    def printed(self, tool: str, *words: str) -> str:
        """The output and the errors of a tool."""
        done = call(tool, *words, cwd=self.room)
        return done.stdout + done.stderr

    def test_signs_that_a_terminal_obeys(self) -> None:
        self.assertEqual(plain('a\x1b[2K\x9b1m\rb\r\n\tc\n'), 'a\\x1b[2K\\x9b1m\\rb\r\n\tc\n')
        self.assertEqual(one_line('a\x1b[31m\n\u202e\udcff'), 'a\\x1b[31m\\n\\u202e\\xff')

    def test_each_tool_shows_them_by_their_numbers(self) -> None:
        need_built()
        name = 'x%sy.toml' % ERASE
        (self.room / name).write_text('end = 1\n[programs]\n"a%sb" = 1\n' % '\\r\\u001b[2K')
        for tool, *words in ('explain', name), ('expect', name), ('why', name, 'mote 0 sends'), ('summary', name):
            with self.subTest(tool):
                printed = self.printed(tool, *words)
                self.assertIn('x\\r\\x1b[2Ky', printed)
                self.assertNotRegex(printed, r'[\x00-\x08\x0b-\x1f\x7f-\x9f]')
