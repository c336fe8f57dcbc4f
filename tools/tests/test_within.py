"""Runs of tools/explain and tools/expect that reach a limit: the message names the process that prints, pauses or
posts most."""
import os

from here import Room, call, scenario_of, text_of
from motesim.explain.within import answer_within, busiest
from motesim.runner import Limits, ProgramFault
from skips import need_built

PROGRAM = text_of('loud.mote')
PAUSES = text_of('idle.mote')
POSTS = text_of('echo.mote')
STORM = '''process p;
autostart p;
receiver p;
code p { etimer t; body { send 1; while 1 { yield; send 1; } } }
'''

class Endless(Room):
    def setUp(self) -> None:
        need_built()
        super().setUp()
        (self.room / 'net.expect.toml').write_text('expect = ["no mote halts"]\n')

    def said(self, tool: str, word: str, *words: str) -> str:
        self.put('net.toml', scenario_of(PROGRAM % word, end=1_000_000))
        done = call(tool, 'net.toml', *words, cwd=self.room, env=dict(os.environ))
        self.assertEqual((done.returncode, done.stdout), (2, ''), done)
        return done.stderr

    def test_the_message_names_the_process(self) -> None:
        for tool in 'explain', 'expect':
            with self.subTest(tool):
                self.assertRegex(self.said(tool, 'print', '--memory', '60'), (
                    r'^%s: net\.toml: the run was ended: the run needs more than 60 megabytes of memory\. Up to moment '
                    r'\d+, process loud of mote 0 prints [\d,]+ times: .* '
                    r'A larger --memory raises the limit\n$') % tool)

    def test_the_message_names_the_mote_that_sends(self) -> None:
        self.assertRegex(self.said('explain', 'send', '--seconds', '0.3'),
                         r'Up to moment \d+, mote 0 sends [\d,]+ packets: .* A larger --seconds raises the limit\n$')

    def test_what_is_done_most(self) -> None:
        for text, said in (
                (PROGRAM % 'print', 'process loud of mote 0 prints '), (PROGRAM % 'send', 'mote 0 sends '),
                (POSTS, 'mote 0 posts '), (PAUSES, 'process idle of mote 0 pauses '),
                # (a process may also post the event of a `pause` to itself)
                (POSTS.replace('msg 1; yield;', 'continue 0; yield_until is(continue);'),
                 'process echo of mote 0 pauses '),
                (STORM, 'the motes send '), (STORM.replace('while 1', 'if 1'), ''),
                (POSTS.replace('while 1', 'if 1'), '')):
            motes = [(x, 0) for x in range(10 if 'receiver' in text else 1)]
            data = scenario_of(text, *motes, end=60 if text == STORM else 1500).replace('per = 100', 'per = 40')
            with self.subTest(text):
                found = busiest(data.encode())
                self.assertEqual(bool(found), bool(said))
                self.assertIn(said, found)

    def test_the_report_has_a_limit(self) -> None:
        with self.assertRaises(ProgramFault) as caught:
            answer_within('net.toml', scenario_of(PAUSES, end=20_000).encode(), Limits(60, 1 << 30, 1 << 20))
        self.assertRegex(str(caught.exception), (
            r'^net\.toml: the run was ended: the report is longer than 1,048,576 bytes\. Up to moment \d+, process '
            r'idle of mote 0 pauses .* A larger --report raises the limit$'))
