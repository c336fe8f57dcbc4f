"""Runs of motecheck with faults, and its refusals."""
import subprocess
import tempfile
import unittest
from pathlib import Path

from here import scenario_of
from motesim.runner import program_path
from skips import need_built
from test_claims import CHECK, need_motecheck
from test_survey import FLOOD, LINE

NET = scenario_of(FLOOD, *LINE, end=100)
REFUSED = "error: %s\n\nFor more information, try '--help'.\n"
CLAIM = 'mote 2: at least 1 line "print value 7"'


class Checked(unittest.TestCase):
    def setUp(self) -> None:
        need_built()
        need_motecheck(self)
        room = tempfile.TemporaryDirectory()
        self.addCleanup(room.cleanup)
        self.room = Path(room.name)
        (self.room / 'net.toml').write_text(NET)
        (self.room / 'claims').write_text(CLAIM)

    def run_check(self, *words: str, status: int = 0) -> str:
        done = subprocess.run([CHECK, *words], cwd=self.room, capture_output=True, text=True)
        self.assertEqual(done.returncode, status, done.stderr)
        return done.stderr if status == 2 else done.stdout

    def report_with(self, *faults: str) -> str:
        return self.run_check('--report', *('--fault=' + it for it in faults), 'net.toml')

    def test_a_report_is_that_of_motesim(self) -> None:
        for faults, losses in (list[str](), ''), (['link 0 to 1 is broken'], '[[loss]]\nfrom = 0\nto = 1\nevery = 1\n'):
            done = subprocess.run([program_path()], input=NET + losses, capture_output=True, text=True, check=True)
            self.assertEqual(self.report_with(*faults), done.stdout)

    def test_faults_of_options_and_of_a_file_are_one_list(self) -> None:
        (self.room / 'more').write_text('# a late start\n\nmote 2 is off from 0 to 9\n')
        lost, late = 'packet 0 of mote 0 is lost', 'mote 2 is off from 0 to 9'
        both = self.run_check('--report', '--fault', lost, '--faults', 'more', 'net.toml')
        self.assertEqual(both, self.report_with(lost, late))
        self.assertEqual(len({both, self.report_with(lost), self.report_with(late), self.report_with()}), 4)
        self.assertIn('\n9 start ', both)

    def test_faults_that_name_what_is_not_there_are_refused(self) -> None:
        missing = "motecheck: fault %d names a mote or a link that the net doesn't have\n"
        (self.room / 'more').write_text('# two\n\nmote 1 is silent\nlink 2 to 0 is broken\n')
        for words, said in [(['--fault', 'mote 3 is silent'], missing % 1), (['--faults', 'more'], missing % 2),
                            (['--fault', 'mote 0 is silent', '--faults', 'more'], missing % 3),
                            (['--fault', 'mote 0 is silnt'], 'motecheck: faults fault line 1 column 14\n'),
                            (['--faults', 'none'], 'motecheck: read fault of the faults\n')]:
            with self.subTest(words=words):
                self.assertEqual(self.run_check(*words, 'net.toml', 'claims', status=2), said)

    def test_a_fault_that_names_no_copy_is_said(self) -> None:
        said = self.run_check('--fault', 'packet 9 of mote 1 is lost', 'net.toml', 'claims')
        self.assertEqual(said, 'holds: %s\nunused: packet 9 of mote 1 is lost\n' % CLAIM)

    def test_options_that_do_not_go_together_are_refused(self) -> None:
        needed = "motecheck takes <SCENARIO> and <CLAIMS>, or '--report' and <SCENARIO>"
        rising = "'--%s <N,..>' takes numbers%s that rise, with commas between them"
        others = ['', '1,,2', 'x', '2,1', '1,1', '4294967296']
        for words, said in [(['net.toml'], needed), (['--report', 'net.toml', 'claims'], needed),
                            (['--lost', '--fault=mote 0 is silent', 'net.toml', 'claims'],
                             "a survey has neither '--report' nor '--fault <TEXT>'"),
                            (['--lost', '--faults=more', 'net.toml', 'claims'], "a survey has no '--faults <FILE>'"),
                            *(([option, it, 'net.toml', 'claims'], rising % (option[2:], ' from 1 on' * not_0))
                              for option, not_0 in (('--late', 1), ('--off', 0), ('--restarts', 1), ('--starts', 1))
                              for it in [*others, *['0'] * not_0])]:
            with self.subTest(words=words):
                self.assertEqual(self.run_check(*words, status=2), REFUSED % said)
