"""The pages on the notation: what their tables call an error is one, and what they call right is."""
import re
import unittest

from here import TOP, scenario_of, text_of
from motesim.judge.names import Names
from motesim.judge.sentences import read_sentence
from motesim.notation.reader import find_fault
from motesim.report.run import answer
from motesim.scenario.fault_text import read_fault
from skips import need_built

PROGRAM = text_of('two_processes.mote')
# Both timers are due at 10, and the process takes the event of u first.
TWO_DUE = scenario_of(text_of('two_due.mote'))
# The meanings of a table's letters in a program: an expression, and names.
LETTERS = {'e': '(x + 1)', 'E': 'e', 'P': 'q', 'T': 't', 'S': 's', 'THREAD': 'f', 'a': 'x', 'b': 'y'}
# The sentences in which the card's forms of expectations are tried, by their rows.
SENTENCES = {'who': '%s halts', 'what': 'mote 1 %s', 'how often': 'mote 1 sends %s', 'when': 'mote 1 sends %s',
             'order': 'mote 1 sends %s', 'copies': '%s'}


def page(name: str) -> str:
    return (TOP / 'docs/use' / name).read_text()


def cells(text: str, head: str) -> list[list[str]]:
    """The rows of the tables with this head."""
    found = []
    for table in re.findall(r'^%s\n\|---\|---\|\n((?:\|.*\n)*)' % re.escape(head), text, re.M):
        found += [re.split(r'(?<!\\)\|', row)[1:-1] for row in table.splitlines()]
    return found


def programs(cell: str) -> list[str]:
    """The lines of programs in a cell."""
    return [it.replace('\\|', '|') for it in re.findall('`([^`]*[;}])`', cell)]


def in_words(form: str) -> str:
    """A form of a table as a program has it."""
    return re.sub(r'\b[A-Za-z_]+\b', lambda it: LETTERS.get(it[0], it[0]), form)


class Tables(unittest.TestCase):
    def test_what_is_not_so_is_refused_and_what_is_written_instead_is_right(self) -> None:
        rows = cells(page('LANGUAGE.md'), '| Wrong | Right |')
        self.assertGreater(len(rows), 6)
        for wrong, right in rows:
            for line in programs(wrong):
                with self.subTest(wrong=line):
                    self.assertIsNotNone(find_fault(PROGRAM % line))
            self.assertTrue(programs(right), right)
            for line in programs(right):
                with self.subTest(right=line):
                    self.assertIsNone(find_fault(PROGRAM % line))

    def test_the_statements_and_expressions_of_the_quick_reference(self) -> None:
        statements = [it for row in cells(page('LANGUAGE.md'), '| Statement | What it does |')
                      for it in programs(row[0])]
        self.assertEqual(len(statements), 25)
        for form in statements:
            with self.subTest(form):
                self.assertIsNone(find_fault(PROGRAM % in_words(form)))
        for row in cells(page('LANGUAGE.md'), '| Expression | Value |'):
            for form in re.findall('`([^`]*)`', row[0]):
                with self.subTest(form):
                    self.assertIsNone(find_fault(PROGRAM % ('x = %s;' % in_words(form))))

    def test_which_waits_ignore_an_event_that_was_posted_before(self) -> None:
        need_built()
        text = page('KERNEL.md')
        part = ' '.join(text[text.index('**An event in the queue.**'):text.index('## The timer processes')].split())
        by_timer, by_variable, stops = '(fired(t) && expired(t))', '(fired(t) && wanted)', 'stop t; wanted = 0;'
        for it in by_timer, by_variable, stops:
            self.assertIn('`%s`' % it, part)
        for change, test, wanted in (('stop t;', 'fired(t)', [10]), ('stop t;', by_timer, [10]),
                                     (stops, by_variable, []), ('set t 20;', 'fired(t)', [10, 30]),
                                     ('set t 20;', by_timer, [30]), ('reset t;', by_timer, [20]),
                                     ('restart_timer t;', by_timer, [20]), ('stop t; set t 20;', by_timer, [30])):
            with self.subTest(change=change, test=test):
                report = answer((TWO_DUE % (change, test)).encode()).report.decode()
                self.assertEqual([int(it) for it in re.findall(r'print p (\d+)', report)], wanted)
        self.assertRegex(page('LANGUAGE.md'), r'\| `stop T;` \|.* in the queue already, this event still arrives')

    def test_the_order_of_declarations(self) -> None:
        lines = PROGRAM.split('\n')
        for number in (0, 1, 2, 3, 6, 7):
            swapped = lines[:number] + [lines[number + 1], lines[number]] + lines[number + 2:]
            with self.subTest(lines[number]):
                is_free = {lines[number].split()[0]} == {lines[number + 1].split()[0]}
                self.assertEqual(find_fault('\n'.join(swapped) % '') is None, is_free)


class Readme(unittest.TestCase):
    def test_the_two_programs_that_it_shows_are_those_of_the_example(self) -> None:
        shown = re.search(r'```text\n(.*?)```', (TOP / 'README.md').read_text(), re.S)
        assert shown
        lines, example = shown[1].splitlines(), ' '.join((TOP / 'examples/transfer.toml').read_text().split())
        middle = lines[0].index('code file')
        for column in ([it[:middle] for it in lines], [it[middle:] for it in lines]):
            self.assertIn(' '.join(' '.join(column).split()), example)


class Card(unittest.TestCase):
    """The page to print: each form on it is one."""
    def test_its_forms_are_read(self) -> None:
        text = page('CARD.md')
        program = re.search(r'```\n(.*?)```', text, re.S)
        assert program
        self.assertIsNone(find_fault(program[1]))
        parts = dict(re.findall(r'^## (\w+)\n(.*?)(?=^## |\Z)', text, re.M | re.S))
        forms = {row[0]: row[1] for part in parts.values()
                 for row in re.findall(r'^\| ([^|]+?) \| (.*) \|$', part, re.M)}
        for row in 'doing', 'waiting', 'timers', 'processes':
            for form in programs(forms[row]):
                with self.subTest(form):
                    self.assertIsNone(find_fault(PROGRAM % in_words(form)))
        for row, frame in SENTENCES.items():
            for form in re.findall('`([^`]+)`', forms[row]):
                with self.subTest(form):
                    read_sentence(frame % form, Names(('p', 'q'), 40))
        for row in ('a link', 'a mote', 'a mote that fails', 'a mote that starts late', 'a packet', 'one copy of it',
                    'one copy, late'):
            with self.subTest(row):
                self.assertIsNotNone(read_fault(forms[row].strip('`')))
