"""Findings are data: no code reads a sentence that the tools wrote."""
import re
import unittest

from here import TOOLS

# A text or a pattern that code looks for in another text, in Python and in JavaScript.
CALLS = ('starts?with|ends?with|removeprefix|removesuffix|r?partition|r?split|r?find|findall|finditer|r?index|indexof|'
         'includes|count|replace|replaceall|fullmatch|match|matchall|search|sub|compile')
SOUGHT = re.compile(r'''(?:\.(?:(?i:%s))\(\(?[rb]*|[=(\[,:] ?(?=/))(?!/[/ *])(['"`/])((?:\\.|(?!\1).)+)\1'''
                    r'''|(['"])([^'"]+)\3 (?:not )?in ''' % CALLS)
# The parts of a pattern that aren't words; and a word with a blank, a bracket or a colon beside it.
MARKS = re.compile(r'\(\?(?:P?<\w+>|[:=!<]+)|\\(?:u\w{4}|[a-zA-Z])|\[[^]]*\]|%[ds]')
IS_SENTENCE = re.compile('[a-z]{2}[:,]? |[ (][a-z]{2}|: *$')
# The words of reports; and the words of texts of motesim and motecheck, of users, and of files and code.
OF_REPORTS = set('mote medium left print send recv lost collide drop start leave take post full busy halt '
                 'boots'.split())
# The words of programs.
OF_PROGRAMS = set('var if while code body thread onpoll onexit print send set yield wait until stop exit'.split())
OF_OTHERS = {
    'motesim', 'scenario fault', 'program fault line', 'motesim program fault line', 'broken', 'if',
    'motesim scenario fault medium fault',
    'covered all sets of at most of faults', 'and', 'never', 'no mote', 'else block',
    'true false', 'script id saved', 'event semaphore process', 'export', 'export const function async function class',
    'plan', 'at line column end of document', 'static unsigned u int t u int bool char let const', 'end',
    'claims fault line column', 'expect faults', 'expect', 'fault', 'motecheck'}
# The words of faults.
OF_FAULTS = set('link mote packet from to of is broken silent lost late off restarts at on the way number'.split())
# The words of claims, and of motecheck's answers.
OF_MOTECHECK = {
    'the lines print process have in order of time exactly the values', 'at least line print process value',
    'the lines print process have in any order exactly the values', 'at least line send value',
    'at least line recv sender value', 'exactly lines halt', 'each of motes mote', 'the net', 'to', 'holds broken by',
    'unused', 'line of mote at', 'for mote', 'from to at', 'line', 'missing superfluous',
    'covered before the limit runs', 'covered nothing all sets of at most of faults before the limit runs',
    'covered nothing all sets of at most of faults',
    'motecheck fault s fault line column'}


def sentences_in(row: str) -> list[str]:
    """The words of the sentences of the tools that a row of code looks for."""
    texts = [it[2] or it[4] for it in SOUGHT.finditer(row)]
    words = [re.findall('[a-z]+', MARKS.sub(' ', it)) for it in texts if IS_SENTENCE.search(MARKS.sub('', it))]
    known = OF_REPORTS | OF_PROGRAMS, OF_FAULTS
    return [' '.join(it) for it in words
            if not any(some.issuperset(it) for some in known) and ' '.join(it) not in OF_OTHERS | OF_MOTECHECK]


class Findings(unittest.TestCase):
    def test_no_code_reads_a_sentence_of_the_tools(self) -> None:
        for row in ("why.partition('; the next is')", "'Hint: Write' in said", "re.sub(r'line [0-9]+ of', 'N', why)",
                    "said.removeprefix('search: ')", "compiled = re.compile(r'# .* with a fault: ')",
                    "text.endsWith('(changed)')"):
            self.assertEqual(len(sentences_in(row)), 1, row)
        for path in (it for it in (TOOLS / 'motesim').rglob('*') if it.suffix in ('.py', '.js')):
            for number, row in enumerate(path.read_text('utf-8').split('\n'), 1):
                self.assertEqual(sentences_in(row), [], '%s, line %d' % (path.relative_to(TOOLS), number))
