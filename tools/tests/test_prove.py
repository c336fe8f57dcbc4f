"""That ./prove proves a copy of the program's crates, reports each, and can be interrupted."""
import contextlib
import io
import shutil
import signal
import unittest
from pathlib import Path
from typing import Any
from unittest import mock

from here import SECONDS, TOP, Room, until  # (it puts tools/ on the path)
from project import prove
from project.running import started
from skips import long
from unbuilt_tree import Tree


class Copies(Room):
    """A proof of two crates by a stand-in for the kit."""

    def test_it_has_the_crates_of_the_program_and_their_rows(self) -> None:
        for name in 'low/src/lib.rt', 'low/must-fail/a.edit', 'low/out/rlib', 'tests/src/lib.rt':
            path = self.room / 'crates' / name
            path.parent.mkdir(parents=True)
            path.write_text('')
        (self.room / 'crates.txt').write_text('# all\nlow may_wait=1: std\ntests: low\n')
        (self.room / 'HANDLES').write_text('Handles allowed: none.\n')
        copy = self.room / 'copy'
        for _ in range(2):
            prove.copy_crates(self.room, ['low'], copy)
        files = sorted(str(it.relative_to(copy)) for it in copy.rglob('*') if it.is_file())
        self.assertEqual(files, ['HANDLES', 'crates.txt', 'crates/low/src/lib.rt'])
        self.assertEqual((copy / 'crates.txt').read_text(), 'low may_wait=1: std\n')

    def proved(self, said: str, status: int) -> tuple[bool, str]:
        """Returns whether all is proved if rt says this, and what ./prove says."""
        def started_rt(words: list[str], cwd: Path) -> Any:
            return started(['sh', '-c', 'printf "$0"; exit %d' % status, said])

        seen = io.StringIO()
        with mock.patch.object(prove, 'started', started_rt), mock.patch.object(prove, 'LOG', self.room / 'log'), \
                contextlib.redirect_stderr(seen):
            return prove.prove_copy(2), seen.getvalue()

    def test_each_crate_has_a_line(self) -> None:
        said = '== low\nfn low::f: proved\nrt: low proved\nrt: high is kept: an earlier run\n'
        is_well, seen = self.proved(said, 0)
        self.assertTrue(is_well)
        self.assertRegex(seen, r'^prove: low is proved: 1 of 2, 0:\d\d\nprove: high is proved: 2 of 2, 0:\d\d\n$')
        self.assertIn('fn low::f: proved\n', (self.room / 'log').read_text())

    def test_what_is_not_proved_is_shown(self) -> None:
        said = '== low\nrt: low proved\n== high\nfn high::f: no proof\nrt: high NOT PROVED\n'
        is_well, seen = self.proved(said, 1)
        self.assertFalse(is_well)
        self.assertIn('prove: high is not proved:\n== high\nfn high::f: no proof\n', seen)
        self.assertNotIn('== low', seen)


@unittest.skipUnless(shutil.which('rt'), 'the command rt of the Rattle kit is not here')
@long
class Proof(Tree):
    """A proof of a small program by the kit."""

    def setUp(self) -> None:
        super().setUp()
        (self.top / 'crates.txt').write_text('motesim:\n')
        self.source.write_text('#![tactic(auto)]\n\nfn main() {}\n')

    def provers(self) -> list[str]:
        found = []
        for path in Path('/proc').glob('[0-9]*/cwd'):
            with contextlib.suppress(OSError):
                if str(path.resolve()).startswith(str(self.top / 'out')):
                    found.append(path.parent.name)
        return found

    def test_it_is_interrupted_and_resumed_and_builds_the_program(self) -> None:
        for number in signal.SIGINT, signal.SIGTERM:
            running = self.begin(self.top / 'prove')
            assert running.stdout
            self.assertIn('proving 1 crate:', running.stdout.readline())
            self.assertTrue(until(lambda: bool(self.provers())))
            running.send_signal(number)
            self.assertEqual(running.wait(SECONDS), 128 + number)
            self.assertIn('./prove continues', running.stdout.read())
            self.assertTrue(until(lambda: not self.provers()),
                            [Path("/proc", it, "cmdline").read_bytes()[:300] for it in self.provers()])
        done = self.run_it(self.top / 'prove')
        self.assertEqual(done.returncode, 0, done.stderr)
        self.assertIn('everything is proved', done.stderr)
        self.assertEqual(self.kept(), ['proved', 'proved-motesim'])
        done = self.run_it(self.link, TOP / 'examples/two_motes.toml')
        self.assertEqual((done.returncode, done.stderr), (0, ''))
        self.assertIn('built already', self.run_it(self.top / 'prove').stderr)
