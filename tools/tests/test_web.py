"""The edits of intermediate code for WebAssembly, what they refuse, and what web/motesim.json says of a module."""
import os
import time
import types
import unittest
from unittest import mock

from here import Room, rows_of, text_of  # (it puts tools/ on the path)
from motesim.runner.module import About
from project import kit
from project.web import Unknown, difference, retargeted, with_narrow_table

GOOD = text_of('main.ll.txt')


class Edits(unittest.TestCase):
    def test_what_is_for_x86_is_replaced(self) -> None:
        text = retargeted(GOOD)
        for it in 'target triple = "wasm64-unknown-unknown"', 'define i32 @motesim_main() #0 {', \
                'attributes #0 = { nounwind }', 'attributes #1 = { nounwind }', '  ret i32 0':
            self.assertIn(it, text.splitlines())
        for it in 'x86', 'sanitize', 'pause':
            self.assertNotIn(it, text)

    def test_what_is_not_known_is_refused(self) -> None:
        for line, why in rows_of('unknown_code.tsv'):
            with self.assertRaisesRegex(Unknown, why, msg=line):
                retargeted(GOOD + line + '\n')

    def test_functions_in_a_table_are_refused(self) -> None:
        table, element = b'\x04\x05\x01\x70\x05\x01\x01', b'\x09\x01\x00'
        head = b'\0asm\1\0\0\0'
        self.assertEqual(with_narrow_table(head + table), head + b'\x04\x05\x01\x70\x01\x01\x01')
        with self.assertRaisesRegex(Unknown, 'in its table'):
            with_narrow_table(head + table + element)


class Libraries(Room):
    def test_they_count_as_proved_until_a_source_changes(self) -> None:
        source, built = self.put('crates/low/src/lib.rt'), self.room / 'crates/low/out/rlib/low.rlib'
        self.put('crates.txt', 'low:\n')
        program = types.SimpleNamespace(below=lambda: [types.SimpleNamespace(rlib=str(built))])
        with mock.patch.object(kit, 'crate_named', lambda name, top: program):
            self.assertFalse(kit.are_libraries_built('program', self.room))
            built.mkdir(parents=True)
            self.assertTrue(kit.are_libraries_built('program', self.room))
            os.utime(source, (time.time() + 1,) * 2)
            self.assertFalse(kit.are_libraries_built('program', self.room))


class Differences(unittest.TestCase):
    ONE = About('a', 'proved', 'kit', '108', 'x')

    def test_other_bytes_from_the_same_tools_are_a_difference(self) -> None:
        self.assertIsNone(difference(self.ONE, self.ONE))
        self.assertIn('bytes', difference(self.ONE, self.ONE._replace(sha256='y')) or '')
        self.assertIn('sources', difference(self.ONE, self.ONE._replace(sources='b')) or '')

    def test_other_bytes_from_other_tools_are_none(self) -> None:
        for other in {'kit': 'another'}, {'binaryen': '109'}, {'code': 'compiled'}:
            self.assertIsNone(difference(self.ONE, self.ONE._replace(sha256='y', **other)))
