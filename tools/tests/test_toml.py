"""TOML that isn't: deep nesting, long numbers and plain mistakes have their place. refusals.tsv has what tools say."""
import itertools
import unittest

from here import work_of
from motesim.toml import NoToml, pieces, read_toml

DEEP = 'x = ' + '[' * 500 + ']' * 500 + '\n'
DEEPEST = 'x = ' + '[' * 100_000 + ']' * 100_000 + '\n'
LONG = 'x = ' + '7' * 5_000 + '\n'
KEY = '.'.join(['a'] * 100_000) + ' = 1\n'
HEADER = '[' + '.'.join(['a'] * 100_000) + ']\n'


class Reader(unittest.TestCase):
    def test_tables(self) -> None:
        self.assertEqual(read_toml('\ufeffa = 1\n[b]\nc = "d"\n'), {'a': 1, 'b': {'c': 'd'}})

    def test_the_place_of_a_mistake(self) -> None:
        for text, line, column in [('a = 1\nb = ?\n', 2, 4), ('a = 1\nb = [1,', 2, 7), (DEEP, 1, 84), (LONG, 2, 0),
                                   ('b = 1\n' + KEY, 2, 0), ('b = 1\n' + HEADER, 2, 1)]:
            with self.subTest(text[:20]), self.assertRaises(NoToml) as raised:
                read_toml(text)
            self.assertEqual((raised.exception.line, raised.exception.column), (line, column))

    def test_a_key_has_80_parts_and_no_more(self) -> None:
        for parts, form in itertools.product((['a'], ['a', '"b.c"', "'d.e'", '"\\"."']),
                                             ('%s = 1', '[%s]', '[[%s]]', 'x = {%s = 1}')):
            for dot in '.', ' . ':
                most = dot.join((parts * 80)[:80])
                with self.subTest(form % most):
                    read_toml(form % most)
                    with self.assertRaisesRegex(NoToml, 'A key has more than 80 parts'):
                        read_toml(form % (most + dot + 'z'))

    def test_dots_and_brackets_that_are_only_text(self) -> None:
        dots, brackets = 'a.' * 200, '[{' * 200
        for words in dots, brackets:
            for text in ('x = "%s"', "x = '%s'", 'x = """\n%s\\"""."""', "x = '''\n%s'''", '# %s\nx = 1', '"%s" = 1',
                         'x = 1 # %s', 'x = ["""a"""", "%s"]', "x = ['''a'''', '%s']", 'x = "\\"%s"',
                         'x = """a""b%s"""', '["%s"]', 'x = "\'\'\'%s"'):
                with self.subTest(text):
                    read_toml(text % words)
        read_toml('\n'.join('[a%d.b.c]\nd = [1.5, 2.5]' % it for it in range(300)))

    def test_the_pieces_of_a_text(self) -> None:
        for text, wanted in [
            ("a = '''it's\n // ''x'''' # y", ['a', "'''it's\n // ''x''''", '# y']),
            ("a = '''x''''' 1", ['a', "'''x'''''", '1']), ("''''''1", ["''''''", '1']),
            ("'''no 'end''", ["'''no 'end''"]), ('a."b.c" = """x \\""" ""y"""" # z', ['a."b.c"', '"""x \\""" ""y""""',
                                                                                    '# z']),
            ('"""no end \\', ['"""no end \\']), ('"""no end""', ['"""no end""']), ('# a\n[b]', ['# a', '[', 'b', ']']),
        ]:
            with self.subTest(text):
                self.assertEqual([it[0] for it in pieces(text)], wanted)

    def test_80_brackets_in_each_other_and_no_more(self) -> None:
        for begin, inner, end in ('[', '', ']'), ('[', '1', ']'), ('{a = ', '1', '}'), ('{a = ', '[]', '}'):
            count = 79 if inner == '[]' else 80
            most = begin * count + inner + end * count
            with self.subTest(begin + inner):
                read_toml('x = %s' % most)
                with self.assertRaisesRegex(NoToml, 'nested too deeply'):
                    read_toml('x = [%s]' % most)

    def test_no_text_takes_long(self) -> None:
        for text in (KEY, HEADER, DEEPEST, '"""\n' * 250_000, "x='" * 250_000, 'x = """' + 'a.b"' * 200_000,
                     '.' * 900_000):
            with self.subTest(text[:9]):
                self.assertLess(work_of(lambda: self.assertRaises(NoToml, read_toml, text)), 300)
