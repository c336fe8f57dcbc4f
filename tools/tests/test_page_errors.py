"""Errors in the page without a server: the word, the place and the correction, which motesim accepts."""
from __future__ import annotations

import json

from in_page import FLOODING, InPage

# What is written instead of a part of the program or of the tables; the words of the error; and the place that is
# marked.
ERRORS = [
    ('send newest', 'send newst', 'Did you mean `newest`?', 'newst'),
    ('if (self == 0)', 'if (self = 0)', '`=` assigns, and `==` compares.', '='),
    ('newest = (newest + 1);', 'newest = newest + 1;',
     'Two values with `+` between them are in parentheses: `(newest + 1)`.', None),
    ('print newest;', 'print newest', '`;` is missing behind `newest`.', None),
    ('(newest < 3)', '(newest < 3', '`)` is missing behind `3`.', None),
    ('var newest = 0;', 'int newest = 0;', 'Variables are declared at the head of a `code`', 'int'),
    ('program = "flood"', 'program = "floood"', 'Did you mean `flood`?', 'floood'),
    ('program = "flood"', 'program = "flood', 'A text ends with the quotes with which it begins.', None),
    ('range = ', 'rnge = ', 'Did you mean `range`?', 'rnge'),
]


class Errors(InPage):
    def test_each_has_its_word_its_place_and_a_correction(self) -> None:
        self.open()
        for old, new, words, marked in ERRORS:
            wrong = FLOODING.replace(old, new, 1)
            self.assertNotEqual(wrong, FLOODING)
            self.put(wrong)
            self.wait('by("fault").textContent.includes(%s)' % json.dumps(words))
            if marked:
                its = self.value('(([row, from, to]) => text.split("\\n")[row].slice(from, to))(web.fault.place)')
                self.assertEqual(its, marked)
            self.press('fault-correct')
            self.wait('by("fault").hidden && !document.body.classList.contains("stale")')
            self.assertEqual(self.value('text.replace(/\\s+$/gm, "")'), '\n'.join(
                it.rstrip() for it in FLOODING.split('\n')).rstrip('\n'), new)
            self.undo()
            self.undo()

    def test_a_text_that_is_no_toml_has_its_place(self) -> None:
        self.open()
        self.put(FLOODING.replace('end = 160', 'end = = 160'))
        self.wait('!by("fault").hidden')
        row = FLOODING[:FLOODING.index('end = 160')].count('\n') + 1
        self.assertIn('in line %d' % row, self.said())

    def test_a_key_that_a_table_lacks_is_named(self) -> None:
        self.open()
        for row, words in ('end = 160\n', '`end` is missing.'), ('per = 100\n', '`per` is missing.'):
            self.put(FLOODING.replace(row, ''))
            self.wait('by("fault").textContent.includes(%s)' % json.dumps(words))
