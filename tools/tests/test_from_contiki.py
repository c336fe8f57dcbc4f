"""The table of docs/use/LANGUAGE.md for those who know Contiki: each piece of the notation in its right column is one,
and runs."""
import re
import unittest

from here import TOP
from motesim.notation.reader import find_fault
from motesim.notation.grammar import RESERVED
from motesim.report.run import answer
from skips import need_built
from test_warnings import net

PAGE = (TOP / 'docs/use/LANGUAGE.md').read_text().split("## From Contiki's C")[1].split('\n## ')[0]
ROWS = [row.strip('| ').split(' | ') for row in PAGE.split('\n') if row.startswith('| ') and ' | ' in row][1:]
MOST = 45
TOP_LINES = {'event': 'event go;', 'semaphore': 'semaphore s = 2;', 'process': 'process a, b;',
             'autostart': 'autostart a, b;', 'receiver': 'receiver a;'}
PARTS = {'var': 'var x = 1; var y = 1; var z = 1; var i = 1; var done = 1; var a0 = 1; var a1 = 1;',
         'etimer': 'etimer t;', 'ctimer': 'ctimer c { x = (x + 1); }', 'thread': 'thread sub { print x; }',
         'onpoll': ''}


def program(piece: str) -> str | None:
    """A program that has a piece of the notation at the place to which it belongs; None for a single word of it."""
    if piece in RESERVED and piece not in ('data', 'from', 'now', 'self'):
        return None
    word = piece.partition(' ')[0]
    tops, parts = dict(TOP_LINES), dict(PARTS)
    if word in tops:
        tops[word] = piece.replace('s a;', 's a, b;').replace('t a;', 't a, b;') if word != 'event' else piece
    elif word in parts:
        declared = re.findall(r'var (\w+)', piece)
        others = [it for it in re.findall('var [^;]+;', parts['var']) if it.split()[1] not in declared]
        parts[word] = ' '.join([piece, *others]) if word == 'var' else piece
    body = '' if word in tops or word in parts else piece if piece[-1] in ';}' else 'print %s;' % piece
    code = piece if word == 'code' else 'code a {\n%s\nbody { %s }\n}' % ('\n'.join(parts.values()), body)
    return '\n'.join([*tops.values(), code, 'code b { body { } }'])


class Table(unittest.TestCase):
    def test_each_row_is_in_the_notation_and_runs(self) -> None:
        need_built()
        self.assertLessEqual(len(ROWS), MOST)
        for _, right in ROWS:
            pieces = [made for it in re.findall('`([^`]+)`', right) if (made := program(it)) is not None]
            self.assertTrue(pieces, right)
            for text in pieces:
                with self.subTest(right):
                    self.assertIsNone(find_fault(text), text)
                    self.assertEqual(answer(net([(0, 'p')], p=' '.join(text.split())).encode()).status, 0, text)
