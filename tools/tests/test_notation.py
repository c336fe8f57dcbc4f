"""The reader of the notation, on any text: properties, with texts that Hypothesis chooses."""
import random
import re
import unittest
from collections import Counter

from motesim.explain.advice import advice
from motesim.explain.say import hint_in_words
from motesim.notation.grammar import RESERVED, SIGNS
from motesim.notation.printer import program_text
from motesim.notation.reader import find_fault, read_program
from motesim.notation.tokens import text_of
from motesim.notation.tree import Value, last_of
from motesim.report.run import answer
from motesim.surveys.smaller import programs
from project.differential.random_program import RandomProgram
from properties import given, settings, st
from skips import need_built

PIECES = st.sampled_from(sorted(RESERVED | SIGNS) + [
    'x', 'a', 't', '0', '7', '65535', '65536', '01', 'X', '@', '_x', 'a_very_long_name', 'a_very_long_named', '"', '\\',
    '\u00e9', '\x00'])
BLANKS = st.sampled_from([' ', '\n', '\r\n', '\t', '// a } b\n', ''])
ANY_TEXT = st.lists(st.tuples(PIECES, BLANKS)).map(lambda its: ''.join(word + blank for word, blank in its))
# A change of a text at a token: its place as a share of the text, what it does, and a word.
CHANGES = st.lists(st.tuples(st.integers(0, 9_999), st.sampled_from(['leave out', 'insert', 'replace', 'cut']), PIECES),
                   min_size=1, max_size=3)


def random_text(seed: int) -> str:
    return RandomProgram(random.Random(seed), Counter()).text()


RIGHT = st.integers(0, 5_000).map(random_text)


@st.composite
def wrong_texts(draw: st.DrawFn) -> str:
    """A program with some changes, which most likely is none any more."""
    text = draw(RIGHT)
    for share, change, new in draw(CHANGES):
        tokens = read_program(text).tokens
        at = tokens[share * len(tokens) // 10_000]
        new = ' %s ' % new if change in ('insert', 'replace') else ''
        text = text[:at.end if change == 'insert' else at.begin] + new + ('' if change == 'cut' else text[at.end:])
    return text


def scenario(program: str) -> bytes:
    """A scenario whose run is short."""
    quoted = '"%s"' % re.sub(r'[^ -~]|["\\]', lambda it: '\\U%08x' % ord(it[0]), program)
    return ('version = 1\nend = 0\n[medium]\nrange = 1\nbase = 1\nper = 1\n[programs]\np = %s\n'
            '[[mote]]\nx = 0\ny = 0\nprogram = "p"\n' % quoted).encode()


class Reader(unittest.TestCase):
    @given(st.one_of(ANY_TEXT, wrong_texts()))
    def test_the_tokens_are_the_whole_text_and_the_tree_ends_at_the_first_error(self, text: str) -> None:
        read = read_program(text)
        self.assertEqual(text_of(read.tokens), text)
        for number, it in enumerate(read.tokens):
            rows = text[:it.begin].split('\n')
            self.assertEqual((it.number, it.line, it.column), (number, len(rows), len(rows[-1])))
            self.assertTrue(text.startswith(it.text, it.begin))
        if read.fault:
            self.assertEqual(read.tokens[read.fault.token.number], read.fault.token)
            # (what is missing is an empty token at this place)
            for statement in read.statements():
                self.assertLessEqual(statement.last.begin, read.fault.token.begin)
                self.assertLessEqual(statement.token.begin, statement.last.begin)

    @given(RIGHT)
    def test_the_canonical_layout_is_read_as_the_same_program(self, text: str) -> None:
        read = read_program(text)
        self.assertIsNone(read.fault)
        written = program_text(read)
        again = read_program(written)
        self.assertIsNone(again.fault)
        self.assertEqual(program_text(again), written)
        kept = [[it.text for it in one.tokens] for one in (read, again)]
        # (an `event` or an empty `autostart` is written in one way only)
        self.assertEqual(Counter(kept[0]), Counter(kept[1]))

    def test_the_first_error_is_the_one_that_motesim_reports(self) -> None:
        need_built()
        seen: Counter[int] = Counter()

        @settings(max_examples=60)
        @given(wrong_texts())
        def compared(text: str) -> None:
            fault, got = find_fault(text), answer(scenario(text))
            seen[fault.kind if fault else 0] += 1
            said = 'motesim: program p fault %d line %d\n' % (fault.kind, fault.token.line) if fault else ''
            self.assertEqual(got.fault.decode(), said, text)

        compared()
        self.assertGreater(len(seen), 2)


class Edits(unittest.TestCase):
    @given(RIGHT, st.integers(0, 9_999))
    def test_an_edit_of_the_text_is_the_same_edit_of_the_tree(self, text: str, share: int) -> None:
        read = read_program(text)
        its = [it for it in read.statements() if it.value]
        if not its:
            return
        chosen = its[share * len(its) // 10_000]
        assert chosen.value
        last = last_of(chosen.value)
        place = read.tokens[chosen.token.number + 1 + len(chosen.names) * (chosen.kind != '=') + (chosen.kind == '=')]
        edited = read_program(text[:place.begin] + '77' + text[last.end:])
        self.assertIsNone(edited.fault)
        self.assertEqual([it.text for it in edited.tokens], [
            *(it.text for it in read.tokens[:place.number]), '77', *(it.text for it in read.tokens[last.number + 1:])])
        self.assertEqual([it.value for it in edited.statements() if it.token.begin == chosen.token.begin],
                         [Value(edited.tokens[place.number])])

    @given(wrong_texts())
    def test_a_correction_changes_only_its_lines_and_removes_the_error(self, text: str) -> None:
        fault = find_fault(text)
        found = advice(text, fault) if fault else None
        if fault is None or found is None or not found.edits:
            return
        self.assertTrue(hint_in_words(found))
        rows, made, last = text.split('\n'), found.applied(text).split('\n'), found.edits[-1].last
        self.assertEqual(made[:found.edits[0].first - 1], rows[:found.edits[0].first - 1])
        self.assertEqual(made[len(made) - len(rows) + last:], rows[last:])
        self.assertNotEqual(find_fault('\n'.join(made)), fault)

    @given(RIGHT)
    def test_a_smaller_program_still_reads(self, text: str) -> None:
        read = read_program(text)
        if sum(1 for _ in read.statements()) > 60:
            return
        steps = list(programs(read))
        for step in steps[::max(1, len(steps) // 25)]:
            small = program_text(step)
            fault = find_fault(small)
            # (a name may be gone that is used, or the last process)
            self.assertIn(fault and fault.kind, (None, 3), (small, fault))
            if fault is None:
                self.assertEqual(program_text(read_program(small)), small)
