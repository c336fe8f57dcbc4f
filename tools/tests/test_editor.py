"""The grammars for editors: that they are whole, and know the notation's words."""
import json
import re
import unittest
from collections.abc import Iterator
from typing import Any

from here import TOOLS, TOP
from motesim.notation.grammar import COLOURS, RESERVED, SIGNS
from project import pages

FOLDER = TOOLS / 'editor'


def patterns_in(it: object) -> Iterator[str]:
    """Each regular expression of a grammar."""
    if isinstance(it, dict):
        for key, value in it.items():
            if key in ('match', 'begin', 'end'):
                yield value
            else:
                yield from patterns_in(value)
    elif isinstance(it, list):
        for value in it:
            yield from patterns_in(value)


def grammar(name: str) -> dict[str, Any]:
    found: dict[str, Any] = json.loads((FOLDER / 'syntaxes' / name).read_text('utf-8'))
    return found


class Grammars(unittest.TestCase):
    def test_each_that_is_named_is_there_and_can_be_read(self) -> None:
        named = json.loads((FOLDER / 'package.json').read_text('utf-8'))['contributes']['grammars']
        self.assertEqual(sorted(it['path'] for it in named),
                         sorted('./syntaxes/' + it.name for it in FOLDER.glob('syntaxes/*')))
        for it in named:
            found = grammar(it['path'].rpartition('/')[2])
            self.assertEqual(found['scopeName'], it['scopeName'])
            for pattern in patterns_in(found):
                re.compile(pattern)

    def rules(self) -> list[tuple[str, re.Pattern[str]]]:
        return [(rule['name'], re.compile(rule['match']))
                for rule in grammar('mote.tmLanguage.json')['repository']['all']['patterns'] if 'name' in rule]

    def first(self, text: str) -> str:
        return next(name for name, pattern in self.rules() if pattern.match(text))

    def test_each_word_of_the_notation_has_its_colour(self) -> None:
        for word in RESERVED:
            self.assertRegex(self.first(word), '^(storage|keyword|support)')
        self.assertFalse([word for word in ('counter', 'data2', 'my_print') for name, it in self.rules()
                          if not name.startswith('invalid') and it.fullmatch(word)])

    def test_each_word_and_each_sign_has_one_colour_on_the_page(self) -> None:
        coloured = [word for words in COLOURS.values() for word in words]
        self.assertEqual(sorted(coloured), sorted({*RESERVED, *''.join(SIGNS)}))

    def test_the_syntax_is_made_of_the_grammar(self) -> None:
        syntax = pages.SYNTAX.read_text('utf-8')
        self.assertEqual(pages.syntax_of(syntax), syntax, 'tools/dev/pages writes it')
        self.assertEqual(pages.syntax_of(syntax.replace('|pause|', '|')), syntax)

    def test_the_grammar_has_each_word_that_programs_may_have(self) -> None:
        found = set(re.findall('"([^" ]+)"', '\n'.join(pages.grammar())))
        self.assertEqual(found, RESERVED.difference(('radio', 'all')) | SIGNS)

    def test_nothing_in_the_examples_is_marked_as_wrong(self) -> None:
        import tomllib
        wrong = dict(self.rules())['invalid.illegal.mote']
        for path in TOP.glob('examples/*.toml'):
            for text in tomllib.loads(path.read_text('utf-8')).get('programs', {}).values():
                self.assertIsNone(wrong.search(re.sub('//.*', '', text)), path.name)
