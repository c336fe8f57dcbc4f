"""The files that tools write without `-o`, and the message that they print once a day."""
import contextlib
import os
import tempfile
import unittest
from pathlib import Path
from unittest import mock

from here import TOP, Room
from motesim.output import beside
from motesim.runner import programs


class Output(Room):
    def test_next_to_the_source(self) -> None:
        self.assertEqual(beside(str(self.room / 'net.toml'), 'net.html'), self.room / 'net.html')
        with contextlib.chdir(self.room):
            self.assertEqual(beside('net.toml', 'net.html'), Path('net.html'))
            self.assertEqual(beside('sub/net.toml', 'net.html'), Path('sub/net.html'))

    def test_never_among_the_files_of_the_repository(self) -> None:
        example = str(TOP / 'examples/flooding.toml')
        with contextlib.chdir(self.room):
            self.assertEqual(beside(example, 'flooding.html'), Path('flooding.html'))
            self.assertEqual(beside('-', 'run.html'), Path('run.html'))
        with contextlib.chdir(TOP):
            self.assertEqual(beside('examples/flooding.toml', 'flooding.html'), Path('out/flooding.html'))
            self.assertEqual(beside('-', 'run.html'), Path('out/run.html'))
            # (a file of the user's own is not an example, wherever it is)
            self.assertEqual(beside('net.plan.toml', 'net.csv'), Path('net.csv'))
            self.assertEqual(beside('class/net.toml', 'net.html'), Path('class/net.html'))
        with contextlib.chdir(TOP / 'examples'):
            self.assertEqual(beside('flooding.toml', 'flooding.html'), TOP / 'out/flooding.html')


class OnceADay(unittest.TestCase):
    def test_it_is_said_once_a_day(self) -> None:
        with tempfile.TemporaryDirectory() as folder, mock.patch.dict(os.environ, MOTESIM_SEEN=folder + '/a/said'):
            self.assertFalse(programs.is_said_today())
            self.assertTrue(programs.is_said_today())
            os.utime(folder + '/a/said', (0, 0))
            self.assertFalse(programs.is_said_today())
            self.assertTrue(programs.is_said_today())

    def test_where_nothing_can_be_noted_it_is_said_each_time(self) -> None:
        with mock.patch.dict(os.environ, MOTESIM_SEEN='/dev/null/said'):
            self.assertFalse(programs.is_said_today())
            self.assertFalse(programs.is_said_today())
