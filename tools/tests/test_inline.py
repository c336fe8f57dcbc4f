"""Faults in inline arrays and tables: the mark is under the value, and a corrected line keeps everything else."""
import re
import unittest

from here import rows_of
from motesim.explain.repair import repair
from motesim.scenario.faults import find_fault

PROGRAMS = "[programs]\nhello = 'process a; code a { body { } }'\n"
HEAD = 'version = 2\nend = 10\n'
MEDIUM = 'medium = { range = 10, base = 2, per = 100, collide = false }'
MOTE, LOSS = '{ x = 0, y = 7, program = "hello" }', '{ from = 0, to = 1, every = 2 }'
MOTES = [MOTE, MOTE.replace('7', '8'), MOTE.replace('7', '9')]
LOSSES = [LOSS, LOSS.replace('to = 1', 'to = 2'), '{ from = 1, to = 0, every = 2 }']


def elements(text: str) -> list[str]:
    """The inline tables of a text, also those of several lines."""
    return re.findall(r'\{[^{}]*=[^{}]*\}', text.partition(PROGRAMS)[0])


class Inline(unittest.TestCase):
    def check(self, text: str, element: str, marked: str, wanted: str, right: str) -> None:
        """Checks the mark of a text's fault, and its correction, in which only one element is another one."""
        fault = find_fault(text.encode())
        assert fault
        place = fault.place(text)
        row = text.split('\n')[place.line - 1]
        with self.subTest(element, row=row):
            shown = marked or element
            self.assertEqual(row[place.column:place.column + place.length], shown)
            self.assertEqual(place.length, len(shown))
            found = repair(text, fault)
            if not wanted:
                self.assertFalse(found and found.edits)
                return
            assert found
            self.assertEqual(elements(found.applied(text)), [it if it != element else right for it in elements(text)])

    def check_array(self, name: str, its: list[str], change: tuple[str, str], marked: str, wanted: str,
                    around: str) -> None:
        for at, inner in enumerate(its):
            element = inner.replace(*change)
            self.assertNotEqual(element, inner)
            right = element.replace(change[1], wanted) if wanted else inner
            for between in ', ', ',\n  ':
                array = '%s = [%s]' % (name, between.join([*its[:at], element, *its[at + 1:]]))
                self.check('%s%s\n%s\n%s' % (HEAD, around, array, PROGRAMS), element, marked, wanted, right)

    def test_each_change(self) -> None:
        for where, old, new, marked, wanted in rows_of('inline.tsv'):
            change = old, new
            if where == 'mote':
                self.check_array('mote', MOTES, change, marked, wanted, MEDIUM)
            elif where == 'loss':
                self.check_array('loss', LOSSES, change, marked, wanted, '%s\nmote = [%s]' % (MEDIUM, ', '.join(MOTES)))
            else:
                element = MEDIUM.replace(*change).partition('= ')[2]
                right = element.replace(new, wanted) if wanted else MEDIUM.partition('= ')[2]
                self.check('%smedium = %s\nmote = [%s]\n%s' % (HEAD, element, ', '.join(MOTES), PROGRAMS), element,
                           marked or 'medium', wanted, right)
