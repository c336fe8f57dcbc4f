"""Errors have one message and one status in all tools: files that no tool can use, in the table refusals.tsv, and
words of a command line."""
import re

from here import Room, call, rows_of, scenario_of
from skips import need_built

# The tools that read a scenario, and what they need besides.
TOOLS: dict[str, list[str]] = {
    'compare': ['{}'], 'expect': ['--expect', 'no mote halts'], 'export': ['--to', 'csv', '-o', 'a'], 'log': [],
    'motecheck': ['claims'], 'search': ['--expect', 'no mote halts'], 'shrink': ['no mote halts'], 'summary': [],
    'timeline': ['-o', 'a.html'], 'why': ['no mote halts']}
# Words behind the name of a scenario, the tools that take such words, and what each of them says.
WORDS = [
    (['--nothing'], [it for it in TOOLS if it != 'export'],
     r'unrecognized arguments: --nothing \(--help lists the options\)'),
    (['--scenarioo', 'x'], ['log', 'summary', 'timeline', 'why'],
     r'unrecognized arguments: --scenarioo; did you mean --scenario\?.*'),
    (['--seconds', 'x'], ['expect', 'search', 'shrink'], r'argument --seconds: x is not a number greater than 0 \(.*'),
    (['--seconds', '0'], ['expect', 'search', 'shrink'], r'argument --seconds: 0 is not a number greater than 0 \(.*'),
    (['--report', '0'], ['expect', 'explain', 'search'],
     r'argument --report: 0 is not a whole number of at least 1 \(.*'),
    (['--expect', 'mote 0 prnts a'], ['expect', 'log', 'shrink', 'why'], r'expectation 1 is not known'),
    (['--expect', 'mote 7 prints a'], ['expect', 'log', 'shrink', 'why'], r'expectation 1 is not known'),
    (['--fault', 'link 1 is broken'], ['compare', 'expect', 'log', 'summary', 'timeline', 'why'],
     r'`link 1 is broken` is no fault from column 1 on: docs/use/.* has the words of faults, .*'),
    (['--faults', 'none'], ['compare', 'expect', 'log', 'summary', 'timeline', 'why'],
     r'none: No such file or directory')]
SCENARIO = scenario_of("process a; autostart a; code a { body { } }\n")
REST = SCENARIO.replace('end = 60\n', '', 1)


class Refusals(Room):
    def test_a_file_that_can_not_be_used_has_one_message_in_all_tools(self) -> None:
        (self.room / 'folder.toml').mkdir()
        self.put('claims')
        for name, text, said in rows_of('refusals.tsv'):
            if text != '-':
                whole = text.replace('SCENARIO', SCENARIO).replace('REST', REST)
                (self.room / name).write_bytes(whole.encode('latin-1'))
            for tool, more in TOOLS.items():
                done = call(tool, name, *(it.format(name) for it in more), cwd=self.room)
                with self.subTest(tool=tool, name=name):
                    self.assertEqual((done.returncode, done.stdout, done.stderr), (2, '', '%s: %s\n' % (tool, said)))

    def test_wrong_words_have_one_message_in_all_tools(self) -> None:
        need_built()
        self.put('net.toml', SCENARIO)
        for words, tools, said in WORDS:
            for tool in tools:
                question = ['no mote halts'] * (tool == 'why' and '--expect' not in words)
                own = ['--expect', 'no mote halts'] * (tool in ('expect', 'search') and '--expect' not in words)
                done = call(tool, 'net.toml', *question, *words, *own, cwd=self.room)
                with self.subTest(tool=tool, words=words):
                    first = done.stderr.split('\n')[0].removeprefix(tool + ': ')
                    self.assertEqual((done.returncode, done.stdout), (2, ''))
                    self.assertTrue(re.fullmatch(said, first), first)
