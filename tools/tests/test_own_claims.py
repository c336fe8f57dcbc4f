"""Claims in the comments at the head of a scenario, which tools/expect reads as the page without a server does."""
import contextlib
import io
import os
import unittest
from unittest import mock

from here import TOP, Room
import skips
from motesim.commands import expect
from motesim.judge.own_claims import own_claims

NET = (TOP / 'examples/two_motes.toml').read_text()
HOLDS, BROKEN = 'mote 1: at least 1 line "recv sender 0 value 42" at 2', 'mote 0: exactly 0 lines "send"'


class Reading(unittest.TestCase):
    def test_they_are_in_front_of_the_first_key_or_table(self) -> None:
        text = '# A net.\n# expect: one\n\n# expect:  two \n#expect: no\nend = 1\n# expect: no\n'
        self.assertEqual(own_claims(text), ['one', 'two'])


class Deciding(Room):
    def expect(self, text: str, *words: str) -> tuple[int, str]:
        skips.need('node', 'nodejs')
        scenario = self.put('net.toml', text)
        out, err = io.StringIO(), io.StringIO()
        with mock.patch.dict(os.environ, MOTECHECK=str(TOP / 'web/motecheck'), MOTESIM=str(TOP / 'web/motesim')), \
                mock.patch('sys.argv', ['expect', str(scenario), *words]), \
                contextlib.redirect_stdout(out), contextlib.redirect_stderr(err):
            with self.assertRaises(SystemExit) as ended:
                expect.main()
        return int(ended.exception.code or 0), out.getvalue() + err.getvalue()

    def test_a_scenario_without_a_file_has_its_own_claims(self) -> None:
        self.assertEqual(self.expect('# expect: %s\n%s' % (HOLDS, NET)),
                         (0, 'holds   %s\n1 passed, 0 failed\n' % HOLDS))
        status, said = self.expect('# expect: %s\n# expect: %s\n%s' % (HOLDS, BROKEN, NET))
        self.assertEqual(status, 1)
        self.assertIn('broken  %s\n          not for %s; line 5' % (BROKEN, BROKEN), said)
        self.assertTrue(said.endswith('1 passed, 1 failed\n'), said)

    def test_they_are_added_to_those_of_the_file_beside_it(self) -> None:
        self.put('net.expect.toml', 'expect = ["mote 0 sends once"]')
        text = '# expect: %s\n%s' % (HOLDS, NET)
        self.assertEqual(self.expect(text), (0, 'holds   mote 0 sends once\nholds   %s\n2 passed, 0 failed\n' % HOLDS))
        self.assertEqual(self.expect(text, '--expect', 'no mote halts')[1],
                         'holds   no mote halts\n1 passed, 0 failed\n')

    def test_a_claim_that_can_not_be_read_and_a_refused_scenario_are_said(self) -> None:
        for text, said in (('# expect: nonsense\n' + NET, 'claims fault line 1 column 1'),
                           ('# expect: %s\n%s' % (HOLDS, NET.replace('base = ', 'bse = ')), 'scenario fault 2')):
            status, words = self.expect(text)
            self.assertEqual(status, 2, words)
            self.assertIn(said, words)
