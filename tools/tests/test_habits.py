"""What people write who come from other languages: each pattern of the tool has an example in habits.tsv, and 150
mistakes in whole scenarios, by somebody who hadn't seen the hints, are in mistakes/."""
import unittest
from pathlib import Path

from here import TOP, rows_of
from motesim.explain.advice import advice
from motesim.explain.applied import changes
from motesim.explain.explanation import correction_of, explanation, of_program_file
from motesim.explain.habits import habits
from motesim.explain.structure import without_parameters
from motesim.notation.reader import find_fault
from motesim.scenario.faults import find_fault as find_fault_of_scenario

HERE = Path(__file__).parent
MOST = 60
LINE = 'event go;\nsemaphore s = 0;\nprocess a;\ncode a {\n  var x = 0;\n  etimer t;\n  body {\n    %s\n  }\n}\n'
ROWS = [row.split('\t') for row in (HERE / 'habits.tsv').read_text().splitlines()]
MISTAKES = [row.split('\t') for row in (HERE / 'mistakes/mistakes.tsv').read_text().splitlines()]


def program(place: str, line: str) -> str:
    """A program with a line at one of its places."""
    at = {it: line if it == place else '' for it in ('top', 'head', 'thread', 'body')}
    own = ['' if line.lower().startswith(word) else word + ' a;\n' for word in ('process', 'autostart')]
    if place != 'top':
        own = ['process a;\n', 'autostart a;\n']
    return ('event go;\nsemaphore s = 0;\n%s%s\n%sreceiver a;\ncode a {\n  var x = 0;\n  var y = 0;\n%s\n'
            '  etimer t;\n  ctimer c { poll a; }\n  thread th {\n%s\n }\n  body {\n%s\n  }\n}\n' % (
                own[0], at['top'], own[1], at['head'], at['thread'], at['body']))


class Habits(unittest.TestCase):
    def test_each_pattern_has_an_example_which_gets_the_right_line(self) -> None:
        self.assertLessEqual(len(habits()), MOST)
        said = set[object]()
        for place, typed, right in ROWS:
            with self.subTest(typed):
                text = program(place, typed)
                fault = find_fault(text)
                assert fault is not None
                found = advice(text, fault)
                assert found is not None
                said.add(found.facts.get('why'))
                if right:
                    self.assertEqual(found.applied(text), program(place, right))
                    self.assertIsNone(find_fault(program(place, right)))
                else:
                    self.assertEqual(found.edits, ())
        self.assertLessEqual({it.why for it in habits()}, said)

    def test_rules_correct_a_statement_and_the_structure_of_a_program(self) -> None:
        for form, typed, right in rows_of('hints.tsv'):
            text, wanted = (it if form == 'program' else it and LINE % it for it in (typed, right))
            with self.subTest(text):
                fault = find_fault(without_parameters(text)[0])
                assert fault is not None
                found = advice(text, fault)
                assert found is not None
                self.assertEqual(found.applied(text) if found.edits else '', wanted)
                if wanted:
                    self.assertIsNone(find_fault(without_parameters(wanted)[0]))

    def test_a_value_under_the_name_that_it_has_elsewhere(self) -> None:
        text = 'process a;\nautostart a;\ncode a {\n  var seen = 0;\n  body {\n    print %s;\n  }\n}\n'
        fault = find_fault(text % 'sender')
        assert fault
        found = advice(text % 'sender', fault)
        assert found
        self.assertEqual(found.applied(text % 'sender'), text % 'from')

    def test_half_a_line_has_an_explanation(self) -> None:
        for place, typed, _ in ROWS[::6]:
            for end in range(len(typed)):
                text = program(place, typed[:end])
                fault = find_fault(text)
                if fault:
                    shown = '\n'.join(of_program_file('x', text, fault))
                    self.assertIn('Allowed here', shown)
                    self.assertNotIn('an error in the tool itself', shown)

    def test_the_mistakes_have_their_place_and_their_correction(self) -> None:
        for name, base, line, typed, message, wanted in MISTAKES:
            rows = (HERE / 'mistakes' / (base + '.toml')).read_text().split('\n')
            self.assertIsNone(find_fault_of_scenario('\n'.join(rows).encode()), base)
            rows[int(line) - 1:int(line)] = typed.replace('\\t', '\t').split('\u00b6')
            text = '\n'.join(rows)
            with self.subTest(name):
                fault = find_fault_of_scenario(text.encode())
                assert fault is not None
                self.assertEqual(fault.message, message)
                shown = '\n'.join(explanation('x', text.encode(), 'motesim: ' + message))
                self.assertRegex(shown, 'Allowed here|LANGUAGE')
                made = [new for _, new in changes(text)]
                runs = bool(made) and find_fault_of_scenario(made[-1].encode()) is None
                self.assertEqual('runs' if runs else 'edits' if made else 'advice' if correction_of(text) else 'none',
                                 wanted)

    def test_more_than_half_are_corrected_and_no_example_of_the_product_is_a_mistake(self) -> None:
        self.assertGreater(sum(it[5] in ('runs', 'edits') for it in MISTAKES), len(MISTAKES) / 2)
        for path in sorted((TOP / 'examples').glob('*.toml')):
            if not path.name.endswith('.expect.toml') and path.name != 'wrong.toml':
                self.assertIsNone(find_fault_of_scenario(path.read_bytes()), path.name)
