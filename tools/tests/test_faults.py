"""The end of a command: one line and status 2, whatever goes wrong; 130 after Ctrl-C."""
import os
import re
import signal
import subprocess
import sys
import unittest
from pathlib import Path
from typing import Any

from here import SECONDS, TOOLS, TOP, text_of
from motesim.faults import SHOW
from motesim.runner.versions import version_line
from motesim.version import VERSION

COMMAND = text_of('command.py.txt')


class Ends(unittest.TestCase):
    def ended(self, work: str, **how: Any) -> subprocess.CompletedProcess[str]:
        words = [sys.executable, '-B', '-c', COMMAND % (str(TOOLS), work)]
        keywords: dict[str, Any] = {'capture_output': True, 'timeout': SECONDS, **how}
        done: subprocess.CompletedProcess[str] = subprocess.run(words, text=True, **keywords)
        return done

    def test_what_goes_wrong_is_one_line(self) -> None:
        for work, seen in [("raise Fault('no such thing')", 'thing: no such thing\n'), ('raise MemoryError',
                                                                                        'thing: out of memory\n'),
                           ("open('/nowhere/a')", 'thing: /nowhere/a: No such file or directory\n')]:
            done = self.ended(work)
            self.assertEqual((done.returncode, done.stdout, done.stderr), (2, '', seen))

    def test_an_error_of_the_tool_is_one_line(self) -> None:
        here = {name: value for name, value in os.environ.items() if name != SHOW}
        done = self.ended("{}['key']", env=here)
        said = "thing: an error in the tool itself: KeyError: 'key' (MOTESIM_TRACEBACK=1 shows its place)\n"
        self.assertEqual((done.returncode, done.stdout, done.stderr), (2, '', said))
        self.assertIn('Traceback', self.ended("{}['key']", env={**here, SHOW: '1'}).stderr)

    def test_a_status_is_handed_on(self) -> None:
        self.assertEqual(self.ended('return 1').returncode, 1)

    @unittest.skipUnless(Path('/dev/full').exists(), 'there is no /dev/full here')
    def test_a_full_disk_is_told(self) -> None:
        for work in "print('x')", "print('x' * 100000)":
            with open('/dev/full', 'w') as full:
                done = self.ended(work, capture_output=False, stdout=full, stderr=subprocess.PIPE)
            self.assertEqual((done.returncode, done.stderr), (2, 'thing: standard output: No space left on device\n'))

    def test_a_closed_pipe_ends_it_quietly(self) -> None:
        ours, its = os.pipe()
        os.close(ours)
        done = self.ended("print('x' * 100000)", capture_output=False, stdout=its, stderr=subprocess.PIPE)
        os.close(its)
        self.assertEqual((done.returncode, done.stderr), (141, ''))

    def test_a_stream_that_is_closed_from_the_start_is_told(self) -> None:
        report = TOP / 'tests/cases/nets/two_senders.expected'
        for words, status, seen in [
                ('%s %s >&-' % (TOOLS / 'summary', report), 2, 'summary: standard output is closed\n'),
                ('%s - <&-' % (TOOLS / 'summary'), 2, 'summary: standard input is closed\n'),
                ('%s %s >/dev/null 2>&-' % (TOOLS / 'summary', report), 0, ''),
                ('%s none.toml 2>&-' % (TOOLS / 'summary'), 2, '')]:
            done = subprocess.run(['sh', '-c', words], capture_output=True, text=True)
            self.assertEqual((done.returncode, done.stdout, done.stderr), (status, '', seen), words)

    def test_an_interrupt_ends_with_130(self) -> None:
        words = [sys.executable, '-B', '-c', COMMAND % (str(TOOLS), "print('begun', flush=True); sys.stdin.read()")]
        with subprocess.Popen(words, stdin=subprocess.PIPE, stdout=subprocess.PIPE, stderr=subprocess.PIPE,
                              text=True) as running:
            assert running.stdout and running.stderr
            running.stdout.readline()
            running.send_signal(signal.SIGINT)
            self.assertEqual((running.wait(SECONDS), running.stderr.read()), (130, ''))


class Tools(unittest.TestCase):
    def test_the_version_is_told(self) -> None:
        seen = version_line() + '\n'
        for command in TOOLS / 'compare', TOOLS / 'dev/pages', TOP / 'run':
            done = subprocess.run([str(command), '--version'], stdin=subprocess.DEVNULL, capture_output=True, text=True)
            self.assertEqual((done.returncode, done.stdout, done.stderr), (0, seen, ''))
        changes = (TOP / 'CHANGES.md').read_text('utf-8')
        # (the first version with a date is the last one that was released)
        self.assertEqual(re.findall(r'^## (\S+), [0-9]', changes, re.M)[0], VERSION)

    def test_each_command_has_no_more_than_its_lines(self) -> None:
        for path in sorted(TOOLS.iterdir()):
            if path.is_file() and not path.suffix:
                lines = path.read_text('utf-8').splitlines()
                self.assertEqual((len(lines), lines[0], lines[2]), (3, '#!/usr/bin/env python3', 'main()'), path.name)
                self.assertRegex(lines[1], r'^from (motesim|project)\.[\w.]+ import main$')
